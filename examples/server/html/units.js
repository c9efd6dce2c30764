/** Converts levels and times of day to the units and the clock that a reader chooses. A foot has exactly 0.3048 metres. */
const METRES_IN_A_FOOT = 0.3048;
const SHORT = { feet: 'ft', meters: 'm', metres: 'm', knots: 'kn' };

export const UNITS = ['feet', 'metres'];
export const HOURS = ['24', '12'];

/** How many of the chosen units one of the station's own has: 1 if nothing is converted. Knots stay knots. */
function factorOf(own, chosen) {
  if (own === 'feet' && chosen === 'metres') return METRES_IN_A_FOOT;
  return own === 'meters' && chosen === 'feet' ? 1 / METRES_IN_A_FOOT : 1;
}

export const isConverted = (own, chosen) => factorOf(own, chosen) !== 1;

/** The name of the units that are shown: `feet`, `meters` and `knots` are the program's, `metres` are converted. */
export const unitsShown = (own, chosen) => (isConverted(own, chosen) ? chosen : own);

export const shortUnits = units => SHORT[units] ?? units;

/** A decimal with at most six decimals, without zeros at its end. */
const sixDecimals = number => String(Number(number.toFixed(6)) + 0);

/** A decimal in hundredths, a half away from zero, as the program's listings have it. */
function hundredthsOf(number) {
  const millionths = Math.round(Math.abs(number) * 1e6);
  const hundredths = Math.floor((millionths + 5000) / 10000);
  const sign = number < 0 && hundredths > 0 ? '-' : '';
  return `${sign}${Math.floor(hundredths / 100)}.${String(hundredths % 100).padStart(2, '0')}`;
}

/** A point of an answer in the chosen units: its level, and the level's text. A point in its own units stays as it is. */
export function pointIn(point, chosen) {
  if (!isConverted(point.units, chosen)) return point;
  const level = Number((point.level * factorOf(point.units, chosen)).toFixed(6));
  return { ...point, level, shown: hundredthsOf(level), units: chosen };
}

/** A sill that is given in the chosen units, in the station's own, as the program's `mark`. A text that is no number stays. */
export function markOf(sill, own, chosen) {
  return isConverted(own, chosen) && isNumber(sill) ? sixDecimals(Number(sill) / factorOf(own, chosen)) : sill;
}

/** A sill in other units than those in which it is given. */
export function sillIn(sill, own, from, to) {
  const [before, after] = [factorOf(own, from), factorOf(own, to)];
  return before === after || !isNumber(sill) ? sill : sixDecimals(Number(sill) / before * after);
}

export const isNumber = text => /^[+-]?(\d+\.?\d*|\.\d+)$/.test(text ?? '');

/** The size of a limit: a negative one counts as its size. */
export const sizeOf = text => text.replace(/^[+-]/, '');

/** A time such as 15:05 on a clock of 24 or of 12 hours: `3:05 pm`. */
export function timeIn(time, hours) {
  if (hours !== '12') return time;
  const [hour, minute] = time.split(':');
  return `${Number(hour) % 12 || 12}:${minute} ${hour < '12' ? 'am' : 'pm'}`;
}
