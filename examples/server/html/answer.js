import { isMark, readPoints, timesAbove, timesWithin } from './events.js';
import { ask, NoAnswer } from './replies.js';
import { isConverted, markOf, pointIn, sizeOf, timeIn, unitsShown } from './units.js';
import { clockAt, dateText, daysLater, momentText, monthsLater, startOfDay } from './zones.js';

const MINUTE = 60_000;

/** The first date of a view, and the date after its last one. */
export function firstAndAfter({ view, date }) {
  if (view === 'year') return [date, String(Number(date.slice(0, 4)) + 1).padStart(4, '0')].map(text => `${text.slice(0, 4)}-01-01`);
  return view === 'week' ? [date, daysLater(date, 7)] : [monthsLater(date, 0), monthsLater(date, 1)];
}

function datesOf(question) {
  const [first, after] = firstAndAfter(question);
  const dates = [first];
  while (dates.at(-1) !== after) dates.push(daysLater(dates.at(-1), 1));
  return dates;
}

/** The offsets of the times that a sheet shows, in order; if it shows no time, the offset of its first minute. */
export function offsetsOf(begin, events, above, zone) {
  const times = above.flatMap(({ from, to, openFrom, openTo }) => [...(openFrom ? [] : [from]), ...(openTo ? [] : [to])]);
  const moments = [...events.filter(event => !isMark(event)).map(({ moment }) => moment), ...times].sort((one, other) => one - other);
  return [...new Set((moments.length > 0 ? moments : [begin]).map(moment => clockAt(moment, zone).offset))];
}

/** The points of a reply in the units and on the clock of the question, each with the units that the program gave it. */
function pointsBy(question, span, clockOf) {
  return async (path, keys) => readPoints(await ask(path, { ...span, ...keys }))
    .map(point => ({ ...pointIn(point, question.units), ownUnits: point.units, clock: clockOf(point.moment) }));
}

/** The levels of a span in steps of 10 minutes, or null if the station has only turns. */
async function levelsOf(points, end) {
  try {
    return await points('heights', { step: 10, end });
  } catch (error) {
    if (error.line !== 'refused: level not here') throw error;
    return null;
  }
}

/** The marks to ask for: a tide's sill, or plus and minus a current's limit. */
export function marksFor(sill, own, chosen) {
  const mark = markOf(sill, own, chosen);
  return own.startsWith('knots') ? [sizeOf(mark), `-${sizeOf(mark)}`] : [mark];
}

/** The events of a span without marks, and the marks of the sill: of plus (`marks`) and of minus (`lowMarks`) a limit. */
async function eventsOf(points, marks) {
  const [high, low = []] = await Promise.all(marks.length === 0 ? [points('predict', {})] : marks.map(mark => points('predict', { mark })));
  return { events: high.filter(event => !isMark(event)), marks: high.filter(isMark), lowMarks: low.filter(isMark) };
}

/** The times above a sill or within a limit, by the level at the begin. */
function timesOf({ marks, lowMarks }, { sill, isCurrent, begin, end }, level) {
  if (sill === null) return [];
  return isCurrent ? timesWithin({ marks, lowMarks }, Number(sill), begin, end, level) : timesAbove(marks, begin, end, level > Number(sill));
}

/** The events of a question and its levels. Only a question with a sill needs the levels, and their units, first. */
async function askedOf(question, points, lastLevel) {
  if (question.sill === null) {
    const [levels, events] = await Promise.all([question.view === 'week' ? levelsOf(points, lastLevel) : [], eventsOf(points, [])]);
    return { levels, marksAsked: [], ...events };
  }
  const levels = await levelsOf(points, lastLevel);
  const marksAsked = levels ? marksFor(question.sill, levels[0].ownUnits, question.units) : [];
  return { levels, marksAsked, ...await eventsOf(points, marksAsked) };
}

/** The first and the last day of a zone's clock that lie within a file's minutes; a station by differences needs a day more at each end. */
export function wholeDays(first, last, zone, isMoved) {
  const from = clockAt(first, zone).date, to = clockAt(last + MINUTE, zone).date;
  const begin = startOfDay(from, zone) < first ? daysLater(from, 1) : from;
  return [daysLater(begin, isMoved ? 1 : 0), daysLater(to, isMoved ? -2 : -1)];
}

/** A refusal of a span past the file says which days can be had; any other one stays as it is. */
function inDays(error, { zone }, station) {
  const found = /^refused: out of years: file has (\S+) to (\S+)$/.exec(error.line ?? '');
  if (!found) return error;
  const days = wholeDays(Date.parse(found[1]), Date.parse(found[2]), zone, Boolean(station?.reference))
    .map(date => dateText(date, { day: 'numeric', month: 'long', year: 'numeric' }));
  return new NoAnswer('refused', `The constants reach from ${days[0]} to ${days[1]} by the clock of ${zone}. Choose days between them.`, error.line);
}

/**
 * Everything that a sheet of a week, a month or a year shows, from the program's answers. `events` has the turns and slacks,
 * `times` the times above a sill or within a current's limit. `isTurnsOnly`: the station has no levels between its turns,
 * and so takes no sill. Levels and times of day are in the units and on the clock of the question.
 */
export async function answerTo(question, station) {
  const { zone, hours } = question;
  const dates = datesOf(question);
  const [begin, end] = [dates[0], dates.at(-1)].map(date => startOfDay(date, zone));
  const clockOf = moment => {
    const clock = clockAt(moment, zone);
    return { ...clock, time: timeIn(clock.time, hours) };
  };
  const span = { station: question.station, begin: momentText(begin), end: momentText(end), layout: 'csv' };
  // A month and a year have no curve. Their first level shows whether the sill is covered as they begin.
  const found = await askedOf(question, pointsBy(question, span, clockOf), question.view === 'week' ? span.end : span.begin)
    .catch(error => { throw inDays(error, question, station); });
  const first = found.levels?.[0] ?? found.events[0];
  const ownUnits = first?.ownUnits ?? station?.units ?? '', units = unitsShown(ownUnits, question.units);
  const isCurrent = ownUnits.startsWith('knots'), isTurnsOnly = found.levels === null;
  const sill = isTurnsOnly || question.sill === null ? null : isCurrent ? sizeOf(question.sill) : question.sill;
  const times = timesOf(found, { sill, isCurrent, begin, end }, found.levels?.[0]?.level);
  return {
    ...question, ...found, levels: found.levels ?? [], sill, isTurnsOnly, isCurrent, units, ownUnits, times, dates, begin, end, span, clockOf,
    isConverted: isConverted(ownUnits, question.units), wantedSill: question.sill, known: station,
    offsets: offsetsOf(begin, found.events, times, zone),
  };
}
