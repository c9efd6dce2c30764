import { clockAt, startOfDay } from './zones.js';

const MINUTE = 60_000;
const DAY = 1440 * MINUTE;
/** The most lines of a column for each size of type in year.css, which is 9, 8.5 or 8 points. */
const SIZES = [64, 72, 80];
/** The columns that a month may have, by the columns of a sheet. */
const COLUMNS_OF_MONTH = { 6: [2, 3, 6, 12, 18], 4: [2, 4, 8, 16], 3: [3, 6, 12, 15] };

export const SIGNS = {
  'High Tide': 'H', 'Low Tide': 'L', 'Max Flood': 'F', 'Max Ebb': 'E', 'Min Flood': 'f', 'Min Ebb': 'e',
  'Slack Flood Begins': 'SF', 'Slack Ebb Begins': 'SE',
};
export const MONTHS = ['January', 'February', 'March', 'April', 'May', 'June', 'July', 'August', 'September', 'October',
  'November', 'December'];

const two = number => String(number).padStart(2, '0');
export const dateOf = (year, month, day) => `${String(year).padStart(4, '0')}-${two(month)}-${two(day)}`;
export const spanOf = (year, zone) => [dateOf(year, 1, 1), dateOf(year + 1, 1, 1)].map(date => startOfDay(date, zone));
/** The calendar repeats after 400 years. */
export const daysIn = (year, month) => new Date(Date.UTC(2000 + (year % 400), month, 0)).getUTCDate();

/** The first minute in (`from`, `to`] whose offset isn't that of `from`. */
function firstOther(from, to, zone) {
  const usual = clockAt(from, zone).ahead;
  let [low, high] = [from, to];
  while (high - low > MINUTE) {
    const middle = low + Math.floor((high - low) / 2 / MINUTE) * MINUTE;
    if (clockAt(middle, zone).ahead === usual) low = middle; else high = middle;
  }
  return high;
}

/** The changes of a zone's clock between two moments, at most one a day: the first minute of each new offset. */
export function clockChanges(begin, end, zone) {
  const changes = [];
  for (let from = begin; from < end; from += DAY) {
    const to = Math.min(from + DAY, end);
    if (clockAt(from, zone).ahead !== clockAt(to, zone).ahead) {
      const moment = firstOther(from, to, zone);
      if (moment < end) changes.push({ moment, clock: clockAt(moment, zone), isChange: true });
    }
  }
  return changes;
}

const isAfter = ({ event: slack }, { event: turn }) => slack.split(' ')[1] === turn.split(' ')[1];

/** The lines of a day: a change of the clock, or a slack with the maximum after it, or one of both. */
export function linesOf(points) {
  const lines = [];
  for (const point of points) {
    const last = lines.at(-1);
    if (point.isChange) lines.push({ change: point });
    else if (point.event.startsWith('Slack ')) lines.push({ slack: point });
    else if (last?.slack && !last.turn && isAfter(last.slack, point)) last.turn = point;
    else lines.push({ turn: point });
  }
  return lines;
}

/** A time of day without a space: `3:05p` for `3:05 pm`. */
export const shortTime = ({ time }) => time.replace(/ ([ap])m$/, '$1');

/** A time above the sill or within the limit. `+N`: it ends N days later, if that isn't the same or the next day. */
export function aboveText({ from, to, openFrom, openTo }, clockOf) {
  const [first, last] = [from, to].map(clockOf);
  const days = (Date.parse(last.date) - Date.parse(first.date)) / DAY;
  return `${openFrom ? '..' : shortTime(first)}–${openTo ? '..' : `${shortTime(last)}${days > 1 ? ` +${days}` : ''}`}`;
}

/** The points and the times of a year by their dates; a time is under the date on which it begins. */
const datesOf = new WeakMap();

function onDate(date, answer) {
  if (!datesOf.has(answer)) {
    const { points, times, clockOf } = answer, found = new Map();
    const add = (name, key, item) => found.set(key, { ...found.get(key), [name]: [...found.get(key)?.[name] ?? [], item] });
    points.forEach(point => add('points', point.clock.date, point));
    times.forEach(time => add('times', clockOf(time.from).date, time));
    datesOf.set(answer, found);
  }
  return { points: [], times: [], ...datesOf.get(answer).get(date) };
}

/** A day's lines and its times above the sill or within the limit, each under the date on which it begins. */
export function dayOf(date, answer) {
  const { points, times } = onDate(date, answer);
  return { lines: linesOf(points), above: times.map(time => aboveText(time, answer.clockOf)) };
}

/** The number of lines of a day; times above a sill or within a limit have a column beside the events. */
export const heightOf = ({ lines, above }) => Math.max(2, lines.length, above.length);

/** The columns of a sheet: as many as have room for their texts in type of 8 points. */
export function columnsOn({ sill, hours, isCurrent, events, times, clockOf }) {
  const isTwelve = hours === '12', isLong = times.some(time => aboveText(time, clockOf).includes('+'));
  if (sill === null) return isTwelve || (isCurrent && events.some(({ shown }) => shown.length > 5)) ? 4 : 6;
  return isCurrent || (isTwelve && isLong) ? 3 : 4;
}

/** The dates of a month in some columns; the columns of the other months begin with the same days. */
export function columnsOf(year, month, count) {
  const dates = Array.from({ length: daysIn(year, month) }, (_, place) => dateOf(year, month, place + 1));
  const start = place => Math.ceil(31 * place / count);
  return Array.from({ length: count }, (_, place) => dates.slice(start(place), start(place + 1))).filter(({ length }) => length > 0);
}

const mostLines = (answer, columns) => Math.max(...columns.map(dates => dates.reduce((sum, date) => sum + heightOf(dayOf(date, answer)), 0)));
const chunks = (all, size) => Array.from({ length: Math.ceil(all.length / size) }, (_, place) => all.slice(place * size, (place + 1) * size));

/**
 * How a year is laid out: `wide`, the columns of a sheet; `divided`, the columns of a month on it; `most`, the lines of the
 * fullest column; and the `sheets`, each with its months and their columns of dates. There are as few sheets as can be in
 * type of at least 8 points.
 */
export function layoutOf(answer) {
  const wide = columnsOn(answer), counts = COLUMNS_OF_MONTH[wide];
  const monthsIn = count => MONTHS.map((_, place) => ({ month: place + 1, columns: columnsOf(answer.year, place + 1, count) }));
  const mostIn = count => mostLines(answer, monthsIn(count).flatMap(({ columns }) => columns));
  const count = counts.find(number => mostIn(number) <= SIZES.at(-1)) ?? counts.at(-1);
  const sheets = count <= wide ? chunks(monthsIn(count), wide / count)
    : monthsIn(count).flatMap(({ month, columns }) => chunks(columns, wide).map(some => [{ month, columns: some }]));
  return { wide, divided: Math.min(count, wide), sheets, most: mostIn(count) };
}

/** The class of year.css for a column of so many lines. */
export const sizeFor = most => `lines-${SIZES.find(size => most <= size) ?? SIZES.at(-1)}`;
