import { hoursText, isMark, isSlack, isStrongest } from './events.js';
import { SIGNS, shortTime } from './year_days.js';
import { dateText } from './zones.js';

/** An element with its children, texts as they are. */
export function element(name, traits = {}, ...children) {
  const made = Object.assign(document.createElement(name), traits);
  made.append(...children);
  return made;
}

const cell = (text, className = '') => element('td', { className }, text);
const head = (text, traits = {}) => element('th', { scope: 'col', ...traits }, text);
/** The heads of columns that need no heads on the screen. */
const unseenHeads = (...texts) => element('thead', { className: 'unseen-heads' },
  element('tr', {}, ...texts.map(text => head(element('span', { className: 'unseen' }, text)))));

/** The names of classes, of those that hold. */
const classes = names => Object.entries(names).filter(([, holds]) => holds).map(([name]) => name).join(' ');

/** The events of a date without the marks, which the times above the sill show. */
const eventsOn = (date, events) => events.filter(event => event.clock.date === date && !isMark(event));
const emphasis = event => (isStrongest(event) ? 'top' : '');
/** A level for which times are computed, as it is typed; a limit is the same for flood and ebb. */
const levelOf = ({ isCurrent, sill }) => (isCurrent ? sill.replace(/^-/, '') : sill);
/** The name of the level for which times are computed: a sill, or the limit of a current. */
export const thresholdText = answer => `${answer.isCurrent ? 'limit of' : 'sill at'} ${levelOf(answer)} ${answer.units}`;
/** What holds during the times that an answer lists. */
export const stateText = answer => `${answer.isCurrent ? 'within' : 'above'} the ${thresholdText(answer)}`;
const capital = text => text[0].toUpperCase() + text.slice(1);

/** How much of its span an answer is above its sill or within its limit, if that is all or none of it; else ''. */
export function extentText({ sill, times, view }) {
  if (sill === null) return '';
  if (times.length === 0) return `at no time of this ${view}`;
  return times.length === 1 && times[0].openFrom && times[0].openTo ? `all of this ${view}` : '';
}

/** What an answer lacks: events, or times above its sill or within its limit; or that these are all of its span. */
export function lackText(answer) {
  const extent = extentText(answer), events = answer.events.length === 0 ? `There are no events in this ${answer.view}.` : '';
  return [events, extent && `${capital(stateText(answer))}: ${extent}.`].filter(Boolean).join(' ');
}

/** The time of a clock, with its offset if the sheet has more than one. */
const clockText = ({ time, offset }, { offsets }) => (offsets.length === 1 ? time : `${time} ${offset}`);

function eventTable(date, answer) {
  const rows = eventsOn(date, answer.events).map(event => element('tr', { className: emphasis(event) },
    cell(clockText(event.clock, answer)), cell(isSlack(event) ? '' : event.shown, 'level'), cell(event.event)));
  if (rows.length === 0) rows.push(element('tr', {}, element('td', { className: 'quiet', colSpan: 3 }, 'no events')));
  return element('table', { className: 'events' }, element('caption', {}, dateText(date)),
    unseenHeads('Time', `Level in ${answer.units}`, 'Event'), element('tbody', {}, ...rows));
}

/** A moment of a day by its time, and of another day with its weekday. */
function momentOn(date, moment, answer) {
  const clock = answer.clockOf(moment), day = dateText(clock.date, { weekday: 'short' });
  return `${clock.date === date ? '' : `${day} `}${clockText(clock, answer)}`;
}

const isOn = (date, { from, to }, { clockOf }) => clockOf(from).date <= date && date <= clockOf(to).date;

function timesTable(date, answer) {
  const rows = answer.times.filter(time => isOn(date, time, answer)).map(time => element('tr', {},
    cell(`${time.openFrom ? '..' : momentOn(date, time.from, answer)}–${time.openTo ? '..' : momentOn(date, time.to, answer)}`),
    cell(`${time.openFrom || time.openTo ? 'over ' : ''}${hoursText(time)}`, 'lasts')));
  if (rows.length === 0) rows.push(element('tr', {}, element('td', { className: 'quiet', colSpan: 2 }, 'at no time')));
  return element('table', { className: 'times' }, element('caption', {}, capital(stateText(answer))),
    unseenHeads('From and to', 'Lasts'), element('tbody', {}, ...rows));
}

/** How the times of a sheet are to be read. */
function timesHint(answer) {
  const state = answer.isCurrent ? `at most ${levelOf(answer)} ${answer.units} of flood or ebb` : 'above it';
  const isOpen = answer.times.some(({ openFrom, openTo }) => openFrom || openTo);
  return `From the first whole minute ${state} to the last.${isOpen ? ' “..”: outside this week.' : ''}`;
}

export function weekSheet(answer) {
  const { dates, sill, offsets, hours } = answer;
  const heading = sill === null ? 'Events' : `Events, and times ${stateText(answer)}`;
  const days = dates.slice(0, -1).map(date => element('div', { className: 'day' }, eventTable(date, answer),
    ...(sill === null ? [] : [timesTable(date, answer)])));
  return [element('h3', {}, heading), ...(sill === null ? [] : [element('p', { className: 'quiet' }, timesHint(answer))]),
    element('div', { className: classes({ days: true, long: offsets.length > 1, twelve: hours === '12' }) }, ...days)];
}

function monthCell(event, text) {
  const level = isSlack(event) ? [] : [' ', element('span', { className: 'level' }, event.shown)];
  return element('td', { className: emphasis(event) }, `${SIGNS[event.event]} ${text(event.clock)}`, ...level);
}

function monthRow(date, { events, times, clockOf, sill }, usual, most) {
  const text = clock => `${shortTime(clock)}${clock.offset === usual ? '' : '*'}`;
  const cells = eventsOn(date, events).map(event => monthCell(event, text));
  while (cells.length < most) cells.push(cell(''));
  const begun = times.filter(({ from }) => clockOf(from).date === date).map(({ from, to, openFrom, openTo }) =>
    element('span', { className: 'time' }, `${openFrom ? '..' : text(clockOf(from))}–${openTo ? '..' : text(clockOf(to))}`));
  const day = dateText(date, { day: 'numeric', weekday: 'short' });
  return element('tr', { className: day.startsWith('Sun') ? 'sunday' : '' }, element('th', { scope: 'row' }, day),
    ...cells, ...(sill === null ? [] : [element('td', { className: 'windows' }, ...begun.flatMap(time => [time, ' ']))]));
}

/** The offset that most of a sheet's times have, and the others. */
function usualOffset({ offsets, events }) {
  const count = offset => events.filter(event => event.clock.offset === offset && !isMark(event)).length;
  return [...offsets].sort((one, other) => count(other) - count(one));
}

export function monthSheet(answer) {
  const { dates, events, times, sill, hours } = answer;
  const [usual, ...others] = usualOffset(answer);
  const days = dates.slice(0, -1);
  const most = Math.max(1, ...days.map(date => eventsOn(date, events).length));
  const first = element('tr', {}, head('Day'), head('Events', { colSpan: most, scope: 'colgroup' }),
    ...(sill === null ? [] : [head(capital(stateText(answer)), { className: 'windows' })]));
  const table = element('table', { className: classes({ month: true, many: most > 5, twelve: hours === '12' }) },
    element('thead', {}, first), element('tbody', {}, ...days.map(date => monthRow(date, answer, usual, most))));
  const signs = Object.entries(SIGNS).filter(([word]) => events.some(({ event }) => event === word));
  const legend = (signs.length === 0 ? [] : [signs.map(([word, sign]) => `${sign} ${word}`).join(', ')])
    .concat(sill === null || extentText(answer) ? [] : `times ${stateText(answer)} on the day on which they begin`)
    .concat(times.some(({ openFrom, openTo }) => openFrom || openTo) ? '..: outside this month' : [])
    .concat(hours === '12' ? 'a before noon, p after it' : [])
    .concat(others.length > 0 ? `times with * at ${others.join(', ')}, the others at ${usual}` : []);
  return [element('p', { className: 'hint', hidden: true }, 'More to the right'),
    element('div', { className: 'scroll', tabIndex: 0, role: 'region', ariaLabel: 'The month' }, table),
    element('p', { className: 'quiet' }, legend.join('; '))];
}
