import { isSlack, readPoints } from './events.js';
import { ask } from './replies.js';
import { isConverted, pointIn, timeIn } from './units.js';
import { clockAt, dateText, momentText } from './zones.js';

const MINUTE = 60_000, DAY = 1440 * MINUTE;
const LINE = /^(?:Now )?(\d{4}-\d\d-\d\d) (\d\d:\d\d) UTC +(-?\d+\.\d\d) (\S+)  (.+)$/;
const SHORT = { 'High Tide': 'high', 'Low Tide': 'low', 'Slack Flood Begins': 'slack, then flood', 'Slack Ebb Begins': 'slack, then ebb' };

/** The level of the present minute, its trend, and the events of the next day, from a reply of `/clock`. */
export function readClock(text) {
  const points = text.split('\n').slice(1).map(line => LINE.exec(line)).filter(Boolean).map(([, date, time, shown, units, event]) =>
    ({ moment: Date.parse(`${date}T${time}Z`), level: Number(shown), shown, units, event }));
  const [now, ...events] = points;
  return { ...now, isRising: now.event === 'Rising', events };
}

/** The next two events, and with them the next slack of a current. */
export function nextEvents(events) {
  const slack = events.find(isSlack), next = events.slice(0, 2);
  return !slack || next.includes(slack) ? next : [next[0], slack];
}

/** A time from now on, as `3 h 05 min`. */
function waitText(from, to) {
  const minutes = Math.round((to - from) / MINUTE), hours = Math.floor(minutes / 60);
  return hours > 0 ? `${hours} h ${String(minutes % 60).padStart(2, '0')} min` : `${minutes} min`;
}

const degrees = direction => (Number.isFinite(direction) ? ` towards ${String(direction).padStart(3, '0')}°` : '');

function eventText({ moment, event, shown, units }, { now, zone, hours }) {
  const clock = clockAt(moment, zone), day = clock.date === clockAt(now, zone).date ? '' : `${dateText(clock.date, { weekday: 'short' })} `;
  const level = event.startsWith('Slack ') ? '' : ` ${shown.replace('-', event.includes('Ebb') ? '' : '-')} ${units}`;
  return `${SHORT[event] ?? event.toLowerCase()}${level} at ${day}${timeIn(clock.time, hours)}, in ${waitText(now, moment)}`;
}

/** What the water does now: a tide's level and trend, or a current's speed and direction. */
export function stateText({ level, shown, units, isRising }, notes = {}) {
  if (!units.startsWith('knots')) return `${shown} ${units}, ${isRising ? 'rising' : 'falling'}`;
  const isFlood = level >= 0, size = shown.replace('-', '');
  if (Number(size) < 0.05) return `slack, ${isRising ? 'flood' : 'ebb'} begins`;
  const direction = degrees(isFlood ? notes.flood_direction : notes.ebb_direction);
  return `${size} ${units} of ${isFlood ? 'flood' : 'ebb'}${direction}, ${isFlood === isRising ? 'growing' : 'easing'}`;
}

/** The line below the title: its first word, and the present level with the next two events, or these alone. */
export function nowText({ state, events, moment }, { zone, hours }) {
  const next = nextEvents(events).map(event => eventText(event, { now: moment, zone, hours }));
  return [state ? 'Now' : 'Next', [...(state ? [state] : []), ...next].join(' · ')];
}

/** The reply of `/clock` in the station's units; in others the same from six decimals, so that it is rounded once. */
async function clockOf({ station, units }) {
  const clock = readClock(await ask('clock', { station }));
  if (!isConverted(clock.units, units)) return clock;
  const [begin, end] = [clock.moment, clock.moment + DAY].map(momentText);
  const [heights, events] = await Promise.all([
    ask('heights', { station, begin, end: begin, layout: 'csv' }), ask('predict', { station, begin, end, layout: 'csv' })]);
  const [level] = readPoints(heights).map(point => pointIn(point, units));
  return { ...clock, ...level, event: clock.event, events: readPoints(events).map(point => pointIn(point, units)) };
}

/** The present state and the coming events of a station; a station without levels has only events. */
export async function askNow(question, notes) {
  try {
    const clock = await clockOf(question);
    return { moment: clock.moment, events: clock.events, state: stateText(clock, notes) };
  } catch (error) {
    if (error.line !== 'refused: level not here') throw error;
  }
  const moment = Math.floor(Date.now() / MINUTE) * MINUTE;
  const [begin, end] = [moment, moment + DAY].map(momentText);
  const events = readPoints(await ask('predict', { station: question.station, begin, end, layout: 'csv' })).map(point => pointIn(point, question.units));
  return { moment, events, state: '' };
}
