// Every number is whole, and either a double below 2^53 or a BigInt: only what the definition rounds is rounded.
const DEGREE = 600_000_000, QUARTER = 90 * DEGREE, HALF = 180 * DEGREE, CIRCLE = 360 * DEGREE, R = 34_377_467_708n;
export const T = 4_147_200_000n;
export const UNIT = 1_000_000_000n;
const SINES = [0, 17452406, 34899497, 52335956, 69756474, 87155743, 104528463, 121869343, 139173101, 156434465, 173648178, 190808995, 207911691,
  224951054, 241921896, 258819045, 275637356, 292371705, 309016994, 325568154, 342020143, 358367950, 374606593, 390731128, 406736643, 422618262,
  438371147, 453990500, 469471563, 484809620, 500000000, 515038075, 529919264, 544639035, 559192903, 573576436, 587785252, 601815023, 615661475,
  629320391, 642787610, 656059029, 669130606, 681998360, 694658370, 707106781, 719339800, 731353702, 743144825, 754709580, 766044443, 777145961,
  788010754, 798635510, 809016994, 819152044, 829037573, 838670568, 848048096, 857167301, 866025404, 874619707, 882947593, 891006524, 898794046,
  906307787, 913545458, 920504853, 927183855, 933580426, 939692621, 945518576, 951056516, 956304756, 961261696, 965925826, 970295726, 974370065,
  978147601, 981627183, 984807753, 987688341, 990268069, 992546152, 994521895, 996194698, 997564050, 998629535, 999390827, 999847695, 1000000000];
const sineOf = degree => (degree < 0 ? -SINES[-degree] : SINES[degree > 90 ? 180 - degree : degree]);
const STEEPNESS = SINES.map((sine, k) => sineOf(k + 1) - sine);
const BENDS = SINES.map((sine, k) => sineOf(k + 1) + sine - sineOf(k + 2) - sineOf(k - 1));

/**
 * The sine of an angle up to the right angle. With `d` for the steepness and `bend` for -M the definition is
 * s(k) + floor((4*r*d + floor(r*(D - r)*bend/D)) / (4*D)); factors are divided so that each product stays below 2^53.
 */
function quarter(p) {
  const k = Math.floor(p / DEGREE), r = p - k * DEGREE, rest = DEGREE - r, d = STEEPNESS[k];
  const bent = r * BENDS[k], turns = Math.floor(bent / DEGREE), left = bent - turns * DEGREE;
  const high = (left >>> 15) * rest, highTurns = Math.floor(high / DEGREE);
  const curved = turns * rest + highTurns * 32768 + Math.floor(((high - highTurns * DEGREE) * 32768 + (left & 32767) * rest) / DEGREE);
  const steep = r * (d >> 12), steepTurns = Math.floor(steep / DEGREE);
  const straight = (steep - steepTurns * DEGREE) * 4096 + r * (d & 4095);
  return SINES[k] + steepTurns * 4096 + Math.floor((4 * straight + curved) / (4 * DEGREE));
}

export function sine(p) {
  const half = p >= HALF ? p - HALF : p, value = quarter(half >= QUARTER ? HALF - half : half);
  return p >= HALF ? -value : value;
}

/** The remainder, from 0, of a whole number below 2^53 in size. */
const modulo = (value, by) => value - Math.floor(value / by) * by;
const startOfYear = year => Date.parse(`${String(year).padStart(4, '0')}-01-01T00:00Z`) / 60_000;

/** A year's amplitude: the station's times the node factor, divided by 1000000, rounded. */
function scaled(amplitude, factor) {
  const size = Math.abs(amplitude), whole = Math.floor(size / 1_000_000);
  return Math.sign(amplitude) * (whole * factor + Math.floor(((size - whole * 1_000_000) * factor + 500_000) / 1_000_000));
}

/** The sum of the products of whole numbers at the same place of several lists. */
const sum = (...lists) => Array.from(lists[0], (_, place) => lists.reduce((product, list) => product * BigInt(list[place]), 1n))
  .reduce((all, product) => all + product, 0n);

/** Factors of sines, in two parts: their last 28 bits, and those above. `angle` belongs to each sine. */
const terms = (factors, angle) => ({ angle, highs: Float64Array.from(factors, factor => Number(factor >> 28n)),
  lows: Float64Array.from(factors, factor => Number(BigInt.asUintN(28, factor))) });

/** The constants of a station in one year of the file, without the constituents that it lacks. */
class Year {
  constructor({ speeds, angles, factors, firstYear }, { amplitudes, epochs, meridian }, index) {
    const own = [...speeds.keys()].filter(place => amplitudes[place] !== 0), values = valueOf => Float64Array.from(own, valueOf);
    this.start = startOfYear(firstYear + index);
    this.speeds = values(place => speeds[place]);
    // The phases an hour before the year begins, at the first minute for which its constants are used.
    this.phases = values(place => modulo(speeds[place] * (meridian - 60) + 60 * (angles[place][index] - epochs[place]), CIRCLE));
    const year = values(place => scaled(amplitudes[place], factors[place][index])), sizes = year.map(Math.abs);
    const steps = this.speeds.map(speed => Math.floor((17454 * speed) / 600_000) + 1);
    Object.assign(this, { amount: sum(sizes), steep: sum(sizes, this.speeds), near: sum(sizes, steps), far: sum(sizes, this.speeds, steps) });
    this.tide = terms(Array.from(year, BigInt), QUARTER);
    this.slope = terms(Array.from(year, (amplitude, place) => -BigInt(amplitude) * BigInt(this.speeds[place])), 0);
  }

  /** The sum of the tide's or the slope's terms, with each sine in two parts. A year's limits keep the four sums below 2^53. */
  sum(what, minute) {
    const { speeds, phases, [what]: { angle, highs, lows } } = this, past = minute - this.start + 60;
    let top = 0, upper = 0, lower = 0, low = 0;
    for (let place = 0; place < speeds.length; place += 1) {
      const value = sine(modulo(speeds[place] * past + phases[place] + angle, CIRCLE)), part = value >> 15, rest = value - part * 32768;
      top += highs[place] * part;
      upper += highs[place] * rest;
      lower += lows[place] * part;
      low += lows[place] * rest;
    }
    return (BigInt(top) << 43n) + (BigInt(upper) << 28n) + (BigInt(lower) << 15n) + BigInt(low);
  }
}

/** The curve of a station's level and slope over the file's years. */
export class Curve {
  constructor(constants, station) {
    Object.assign(this, { firstYear: constants.firstYear, last: constants.years - 1, index: 0, datum: T * UNIT * BigInt(station.datum) });
    this.years = Array.from({ length: constants.years }, (_, index) => new Year(constants, station, index));
    this.minutes = { first: this.years[0].start, last: startOfYear(this.firstYear + constants.years) };
  }

  /** The line of the first limit that a year exceeds, or null. */
  limit() {
    const index = this.years.findIndex(({ amount, steep }) => amount > UNIT || steep > 10n ** 17n);
    return index < 0 ? null : `limit: too ${this.years[index].amount > UNIT ? 'large' : 'steep'} in ${this.firstYear + index}`;
  }

  /** The index of the year to which a minute of the file belongs. */
  indexOf(minute) {
    while (this.index > 0 && minute < this.years[this.index].start) this.index -= 1;
    while (this.index < this.last && minute >= this.years[this.index + 1].start) this.index += 1;
    return this.index;
  }

  /** The year of a minute, or the year before the new year of the blend that has one of the minutes, and the year after it. */
  around(first, last) {
    const index = this.indexOf(first), { years } = this;
    if (index > 0 && first < years[index].start + 60) return [years[index - 1], years[index]];
    return index < this.last && last > years[index + 1].start - 60 ? [years[index], years[index + 1]] : [years[index]];
  }

  /** T times the tide or the slope of a year; within the blend of a new year the weighted sum of both years. */
  blended(minute, what) {
    const [before, after] = this.around(minute, minute);
    if (!after) return T * before.sum(what, minute);
    const x = BigInt(minute - after.start), W = 2_073_600_000n + 64_800_000n * x - 12_000n * x ** 3n + x ** 5n, V = 5n * (3600n - x * x) ** 2n;
    const bend = what === 'slope' ? V * R * (after.sum('tide', minute) - before.sum('tide', minute)) : 0n;
    return (T - W) * before.sum(what, minute) + W * after.sum(what, minute) + bend;
  }

  level(minute) {
    return this.datum + this.blended(minute, 'tide');
  }

  slope(minute) {
    return this.blended(minute, 'slope');
  }

  /** The rate of the slope for a cell that touches these minutes, or null if it has none. */
  turnRate(first, last, version) {
    const [one, two] = this.around(first, last);
    if (!two) return T * one.far;
    const rate = T * (one.far > two.far ? one.far : two.far) + 64_800_000n * (UNIT * (one.steep + two.steep) + R * (one.near + two.near))
      + 1_663_000n * R * UNIT * (one.amount + two.amount);
    return version === 1 || rate > 4n * 10n ** 34n ? null : rate;
  }

  /** The same for the level, times a factor. */
  levelRate(first, last, version, times) {
    const [one, two] = this.around(first, last);
    if (!two) return times * T * one.near;
    return version === 1 ? null : times * (T * (one.near > two.near ? one.near : two.near) + 64_800_000n * UNIT * (one.amount + two.amount));
  }
}
