import { readRecords } from './csv.js';
import { clockAt } from './zones.js';

const MINUTE = 60_000;

/** A level with six decimals to hundredths, a half away from zero, as the program's listings have it. */
export function levelText(decimal) {
  const millionths = Math.round(Number(decimal) * 1e6);
  const hundredths = Math.floor((Math.abs(millionths) + 5000) / 10000);
  const sign = millionths < 0 && hundredths > 0 ? '-' : '';
  return `${sign}${Math.floor(hundredths / 100)}.${String(hundredths % 100).padStart(2, '0')}`;
}

/** The events, or the levels, of a reply in CSV. */
export const readPoints = text => readRecords(text).map(({ moment, event, level, units }) =>
  ({ moment: Date.parse(moment), event, level: Number(level), shown: levelText(level), units }));

/** An event as a line of `tide predict` with the zone's file. */
export function lineOf({ moment, event, shown, units }, zone) {
  const { date, time, offset } = clockAt(moment, zone);
  return `${date} ${time} ${offset}  ${shown.padStart(9)} ${units}  ${event}`;
}

export const isMark = ({ event }) => event.startsWith('Mark ');
export const isSlack = ({ event }) => event.startsWith('Slack ');
export const isTop = ({ event }) => ['High Tide', 'Max Flood', 'Min Ebb', 'Slack Flood Begins'].includes(event);
export const isStrongest = ({ event }) => ['High Tide', 'Max Flood', 'Max Ebb'].includes(event);

/**
 * The times above a mark, from the first whole minute above it to the last, of the minutes from `begin` up to `end`.
 * An event is at the last minute before the level passes. A time is open where the span cuts it.
 */
export function timesAbove(events, begin, end, isAboveAtBegin) {
  const times = [];
  let from = isAboveAtBegin ? { from: begin, openFrom: true } : null;
  for (const { moment, event } of events.filter(isMark)) {
    if (event === 'Mark Rising') {
      from = { from: moment + MINUTE, openFrom: false };
    } else if (from) {
      times.push({ ...from, to: moment, openTo: false });
      from = null;
    }
  }
  if (from && from.from < end) times.push({ ...from, to: end - MINUTE, openTo: true });
  return times;
}

/**
 * The times within a limit, from the first whole minute to the last, of the minutes from `begin` up to `end`: -limit < level <= limit,
 * by the marks of the limit and of minus the limit. `level` is the level at `begin`.
 */
export function timesWithin({ marks, lowMarks }, limit, begin, end, level) {
  const isAbove = { high: level > limit, low: level > -limit };
  const passes = [...lowMarks.map(mark => ({ ...mark, side: 'low' })), ...marks.map(mark => ({ ...mark, side: 'high' }))]
    .sort((one, other) => one.moment - other.moment);
  const times = [];
  let from = isAbove.low && !isAbove.high ? { from: begin, openFrom: true } : null;
  for (const { moment, event, side } of passes) {
    isAbove[side] = event === 'Mark Rising';
    const isWithin = isAbove.low && !isAbove.high;
    if (isWithin && !from) from = { from: moment + MINUTE, openFrom: false };
    if (isWithin || !from) continue;
    if (from.from <= moment) times.push({ ...from, to: moment, openTo: false });
    from = null;
  }
  if (from && from.from < end) times.push({ ...from, to: end - MINUTE, openTo: true });
  return times;
}

export function hoursText({ from, to }) {
  const minutes = (to - from) / MINUTE + 1;
  return `${Math.floor(minutes / 60)} h ${String(minutes % 60).padStart(2, '0')} min`;
}
