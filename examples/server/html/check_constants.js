import { demand, isName, latinText, readDecimal, readTime, readWith } from './check_text.js';

const ANGLE = [7, -7_200_000_000, 7_200_000_000], LEVEL = [6, -10_000_000_000, 10_000_000_000], FACTOR = [6, 0, 10_000_000];

/** The lines of a file that are neither comments nor blank. */
class Lines {
  constructor(text) {
    Object.assign(this, { text, at: 0, number: 0 });
  }

  /** The next line, or null at the end of the file. */
  next() {
    while (this.at < this.text.length) {
      const from = this.at, found = this.text.indexOf('\n', from), end = found < 0 ? this.text.length : found;
      this.at = end + 1;
      this.number += 1;
      if (this.text[from] === '#') continue;
      demand(end - from <= 4096, 'line too long (13)');
      const line = this.text.slice(from, end > from && this.text[end - 1] === '\r' ? end - 1 : end);
      if (/[^ \t]/.test(line)) return line;
    }
    return null;
  }

  /** The tokens of the next line, which the file has to have. */
  tokens() {
    const line = this.next();
    if (line === null) this.number += 1;
    demand(line !== null, 'cut short (11)');
    return line.match(/[^ \t]+/g);
  }

  /** The only token of the next line, or '' if there are more. */
  token() {
    const tokens = this.tokens();
    return tokens.length === 1 ? tokens[0] : '';
  }

  count() {
    const token = this.token();
    demand(/^\d{1,9}$/.test(token) && Number(token) >= 1 && Number(token) <= 500, 'bad count (1)');
    return Number(token);
  }
}

function readConstituents(lines) {
  const names = [], speeds = [];
  for (let left = lines.count(); left > 0; left -= 1) {
    const tokens = lines.tokens(), [name, speed] = tokens;
    demand(isName(name, name.length, 32) && !['x', '*END*', ...names].includes(name), 'bad name (2)');
    demand(tokens.length === 2, 'bad number (3)');
    speeds.push(readDecimal(speed, 7, 0, 3_600_000_000));
    names.push(name);
  }
  return { names, speeds };
}

/** A value of each year for each constituent. */
function readTable(lines, names, years, form) {
  const table = names.map(name => {
    demand(lines.token() === name, 'wrong constituent (7)');
    const values = [];
    while (values.length < years) {
      for (const token of lines.tokens()) {
        demand(values.length < years, 'bad number (3)');
        values.push(readDecimal(token, ...form));
      }
    }
    return values;
  });
  demand(lines.token() === '*END*', 'no end (8)');
  return table;
}

function readStation(lines, line, names) {
  const name = line.replace(/^[ \t]+|[ \t]+$/g, '');
  demand(isName(name, name.length, 200), 'bad name (2)');
  const [time, zone = ':', ...behind] = lines.tokens(), meridian = readTime(time);
  demand(meridian !== null && Math.abs(meridian) < 960 && behind.length === 0 && isName(zone, zone.length, 100), 'bad meridian (9)');
  const [number, unit, ...more] = lines.tokens();
  demand(unit !== undefined && more.length === 0, 'bad units (10)');
  const datum = readDecimal(number, ...LEVEL), amplitudes = new Float64Array(names.length), epochs = new Float64Array(names.length);
  demand(['feet', 'meters', 'knots', 'knots^2'].includes(unit), 'bad units (10)');
  names.forEach((constituent, place) => {
    const tokens = lines.tokens();
    demand([constituent, 'x'].includes(tokens[0]), 'wrong constituent (7)');
    demand(tokens.length === 3, 'bad number (3)');
    const values = [readDecimal(tokens[1], ...LEVEL), readDecimal(tokens[2], ...ANGLE)];
    if (tokens[0] !== 'x') [amplitudes[place], epochs[place]] = values;
  });
  return { name, meridian, datum, unit, amplitudes, epochs };
}

function readParts(lines) {
  const { names, speeds } = readConstituents(lines), year = lines.token(), firstYear = Number(year);
  demand(/^\d{1,9}$/.test(year), 'bad number (3)');
  demand(firstYear >= 2 && firstYear <= 8800, 'out of range (5)');
  const years = lines.count(), angles = readTable(lines, names, years, ANGLE);
  demand(lines.count() === years, 'years differ (6)');
  const factors = readTable(lines, names, years, FACTOR), stations = [];
  for (let line = lines.next(); line !== null; line = lines.next()) {
    demand(stations.length < 20_000, 'too many stations (12)');
    stations.push(readStation(lines, line, names));
  }
  return { speeds, firstYear, years, angles, factors, stations };
}

/** Reads a file of harmonic constants. */
export function readConstants(bytes) {
  const lines = new Lines(latinText(bytes));
  return readWith(() => readParts(lines), () => `file: line ${lines.number}`);
}
