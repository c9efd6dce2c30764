import { demand, isName, readDecimal, readTime, readWith, utf8Text } from './check_text.js';

const COLUMNS = ['name', 'reference', 'high_add', 'low_add', 'high_times', 'low_times', 'high_plus', 'low_plus', 'flood_add', 'ebb_add'];
const MARK = 34, COMMA = 44, LF = 10, CR = 13;

/** The rows of a table, each a list of fields as bytes. Empty lines are no rows. */
function* rowsOf(bytes) {
  let at = bytes[0] === 0xef && bytes[1] === 0xbb && bytes[2] === 0xbf ? 3 : 0;
  for (; at < bytes.length; at += 1) {
    if (bytes[at] === LF || bytes[at] === CR) continue;
    const row = [];
    do {
      const field = [];
      if (row.length > 0) at += 1;
      if (bytes[at] === MARK) {
        for (at += 1; at < bytes.length; at += 1) {
          if (bytes[at] === MARK && bytes[at += 1] !== MARK) break;
          field.push(bytes[at]);
        }
      }
      for (; at < bytes.length && ![COMMA, LF, CR].includes(bytes[at]); at += 1) field.push(bytes[at]);
      row.push(Uint8Array.from(field));
    } while (bytes[at] === COMMA);
    yield row;
  }
}

/** The value of a field by its column; an empty field has a usual value, but for the names. */
function readValue(bytes, column) {
  const text = utf8Text(bytes), form = COLUMNS[column].split('_').pop();
  demand(text !== null, 'not UTF-8 (6)');
  demand(column > 1 || isName(text, bytes.length, 400), 'bad name (7)');
  if (column < 2) return text;
  if (text === '') return [0, 0, 1_000_000, 1_000_000, 0, 0, null, null][column - 2];
  if (form === 'times') return readDecimal(text, 6, 1, 100_000_000);
  if (form === 'plus') return readDecimal(text, 6, -10_000_000_000, 10_000_000_000);
  const minutes = readTime(text);
  demand(minutes !== null, 'bad number (3)');
  demand(Math.abs(minutes) <= 1440, 'out of range (5)');
  return minutes;
}

function readRow(row, width) {
  demand(row.length === width, 'field count (2)');
  const [name, reference, highAdd, lowAdd, highTimes, lowTimes, highPlus, lowPlus, flood = null, ebb = null] = row.map(readValue);
  demand((flood === null) === (ebb === null), 'half slack (8)');
  const high = { add: highAdd, times: highTimes, plus: highPlus }, low = { add: lowAdd, times: lowTimes, plus: lowPlus };
  return { name, reference, high, low, slack: flood === null ? null : { flood, ebb } };
}

/** Reads a table of subordinate stations. */
export function readOffsets(bytes) {
  let number = 1;
  return readWith(() => {
    const rows = rowsOf(bytes), header = rows.next().value ?? [];
    demand([8, 10].includes(header.length) && header.every((field, column) => utf8Text(field) === COLUMNS[column]), 'bad header (1)');
    return Array.from(rows, row => {
      number += 1;
      return readRow(row, header.length);
    });
  }, () => `offsets: row ${number}`);
}
