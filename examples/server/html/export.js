import { isSlack } from './events.js';
import { hasPlace } from './near.js';
import { stateText } from './sheets.js';
import { shortUnits } from './units.js';
import { clockAt, momentText } from './zones.js';

const MINUTE = 60_000;
const SUMMARIES = { 'High Tide': 'High', 'Low Tide': 'Low', 'Slack Flood Begins': 'Slack, flood begins', 'Slack Ebb Begins': 'Slack, ebb begins' };
const encoder = new TextEncoder();

const field = value => (/[",\r\n]/.test(value) ? `"${value.replaceAll('"', '""')}"` : String(value));

function localFields(moment, zone) {
  const { date, time, offset } = clockAt(moment, zone);
  return [`${date} ${time}`, offset];
}

/** What a time above a sill or within a limit is called. */
const windowName = ({ isCurrent, sill, units }) => `${isCurrent ? 'Within' : 'Above'} ${sill} ${units}`;

const byMoment = (one, other) => one[0] - other[0];

/** An answer as CSV: a row for each event, and one for each time above the sill or within the limit, which has an end. */
export function csvOf(answer) {
  const { station, zone, units, events, times } = answer;
  const moment = value => [momentText(value), ...localFields(value, zone)];
  const rows = [
    ...events.map(event => [event.moment, [station, ...moment(event.moment), event.event, event.level.toFixed(6), units, '', '', '']]),
    ...times.map(time => [time.from, [station, ...moment(time.from), windowName(answer), '', '', ...moment(time.to)]]),
  ].sort(byMoment).map(([, row]) => row);
  const header = ['station', 'moment', 'local', 'offset', 'event', 'level', 'units', 'end_moment', 'end_local', 'end_offset'];
  return [header, ...rows].map(row => `${row.map(field).join(',')}\n`).join('');
}

const escaped = text => text.replace(/[\\;,]/g, '\\$&').replaceAll('\n', '\\n');

/** A line of a calendar, cut into lines of at most 75 bytes. */
function foldedLine(text) {
  const lines = [''];
  let size = 0;
  for (const letter of text) {
    const bytes = encoder.encode(letter).length;
    if (size + bytes > 75) {
      lines.push(' ');
      size = 1;
    }
    lines[lines.length - 1] += letter;
    size += bytes;
  }
  return lines.join('\r\n');
}

const stamp = moment => `${momentText(moment).replace(/[-:Z]/g, '')}00Z`;
const hexadecimal = text => [...encoder.encode(text)].map(byte => byte.toString(16).padStart(2, '0')).join('');

/** A short summary, as `High 10.5 ft`: the words that fit a telephone's calendar come first. */
export function summaryOf(event, units) {
  const text = SUMMARIES[event.event] ?? event.event.replace(/ (\w)/, (all, letter) => ` ${letter.toLowerCase()}`);
  return isSlack(event) ? text : `${text} ${Number(Math.abs(event.level) < 0.05 ? 0 : event.level).toFixed(1)} ${shortUnits(units)}`;
}

function entry(answer, now, { key, from, to, summary, description }) {
  const { station, known } = answer, { notes } = known ?? {};
  return [
    'BEGIN:VEVENT', `UID:${from / MINUTE}-${key}-${hexadecimal(station)}@tide-page.invalid`, `DTSTAMP:${stamp(now)}`,
    `DTSTART:${stamp(from)}`, ...(to ? [`DTEND:${stamp(to)}`] : []), `SUMMARY:${escaped(summary)}`, `LOCATION:${escaped(station)}`,
    ...(hasPlace(notes) ? [`GEO:${notes.latitude};${notes.longitude}`] : []), `DESCRIPTION:${escaped(description)}`,
    'TRANSP:TRANSPARENT', 'END:VEVENT'];
}

/** An answer as a calendar: an entry for each event, and one for each time above the sill or within the limit. */
export function calendarOf(answer, now) {
  const { units, events, times, sill, isCurrent, station } = answer, source = answer.isConverted ? ` (converted from ${answer.ownUnits})` : '';
  const short = `${isCurrent ? 'Within' : 'Above'} ${sill} ${shortUnits(units)}`;
  const warning = 'Predicted from harmonic constants, without the weather. Not for navigation.';
  const cuts = { from: 'It began before this calendar does.', to: 'It goes on after this calendar ends.' };
  const entries = [
    ...events.map(event => ({ from: event.moment, key: event.event.replaceAll(' ', '-').toLowerCase(), summary: summaryOf(event, units),
      description: `${event.event}${isSlack(event) ? '' : ` ${event.shown} ${units}${source}`}. ${warning}` })),
    // The last whole minute is still above the sill.
    ...times.map(time => ({ from: time.from, to: time.to + MINUTE, key: `${isCurrent ? 'within' : 'above'}-${sill}`, summary: short,
      description: [`It is ${stateText(answer)}.`, time.openFrom && cuts.from, time.openTo && cuts.to, warning].filter(Boolean).join(' ') })),
  ].sort((one, other) => one.from - other.from);
  const lines = ['BEGIN:VCALENDAR', 'VERSION:2.0', 'PRODID:-//Tides and currents//Page//EN', `X-WR-CALNAME:${escaped(station)}`,
    ...entries.flatMap(each => entry(answer, now, each)), 'END:VCALENDAR'];
  return lines.map(line => `${foldedLine(line)}\r\n`).join('');
}

/** A file's name from a station's, as `boston-2026-06-week`. */
export function fileName({ station, view, dates }, ending) {
  const first = station.split(',')[0].normalize('NFD').replace(/\p{M}/gu, '').replace(/[^A-Za-z0-9]+/g, '-').replace(/^-|-$/g, '').toLowerCase() || 'station';
  const when = { week: dates[0], month: dates[0].slice(0, 7), year: dates[0].slice(0, 4) }[view];
  return `${first}-${when}${view === 'week' ? '-week' : ''}.${ending}`;
}
