import { directionsText, stationText, timesText } from './about.js';
import { isStrongest } from './events.js';
import { element, extentText, thresholdText } from './sheets.js';
import { shortUnits } from './units.js';
import { aboveText, dayOf, heightOf, layoutOf, MONTHS, shortTime, SIGNS, sizeFor } from './year_days.js';

const WARNING = 'NOT FOR NAVIGATION. Predicted from harmonic constants, without the weather.';
const WEEKDAYS = ['Sun', 'Mon', 'Tue', 'Wed', 'Thu', 'Fri', 'Sat'];
const weekdayOf = date => WEEKDAYS[new Date(`${date}T00:00Z`).getUTCDay()];
const cell = (className, text) => element('td', { className }, text);
const unseen = text => element('span', { className: 'unseen' }, text);

function turnCells(turn) {
  if (!turn) return [cell('', ''), cell('', ''), cell('', '')];
  const top = isStrongest(turn) ? ' top' : '';
  return [cell(`sign${top}`, SIGNS[turn.event]), cell(`time${top}`, shortTime(turn.clock)), cell(`level${top}`, turn.shown)];
}

/** The cells of a current's line: the maximum beside a slack says which one begins. */
function currentCells({ slack, turn }) {
  if (!slack || turn) return [cell('begins', slack ? shortTime(slack.clock) : ''), ...turnCells(turn)];
  return [cell('begins', shortTime(slack.clock)), element('td', { className: 'sign', colSpan: 3 }, SIGNS[slack.event])];
}

/** The cells of each row of a day, behind its date. */
function cellsOf({ lines, above }, { isCurrent, sill }) {
  const wide = isCurrent ? 4 : 3;
  const rows = lines.map(({ change, slack, turn }) => {
    if (change) return [element('td', { className: 'change', colSpan: wide }, `clock ${change.clock.offset}`)];
    return isCurrent ? currentCells({ slack, turn }) : turnCells(turn);
  });
  if (sill === null) return rows;
  while (rows.length < above.length) rows.push([element('td', { colSpan: wide }, '')]);
  return rows.map((row, place) => [...row, cell('above', above[place] ?? '')]);
}

function dayRows(date, answer) {
  const day = dayOf(date, answer), weekday = weekdayOf(date);
  const rows = cellsOf(day, answer), height = heightOf(day);
  while (rows.length < height) rows.push([element('td', {}, '\u00a0')]);
  const head = element('th', { scope: 'rowgroup', rowSpan: height }, String(Number(date.slice(8))), element('br'), weekday);
  return element('tbody', { className: weekday === 'Sun' ? 'sunday' : '' },
    ...rows.map((row, place) => element('tr', {}, ...(place === 0 ? [head] : []), ...row)));
}

/** The name of the times above a sill or within a limit, in a word and a level. */
const timesName = ({ isCurrent, sill, units }) => `${isCurrent ? 'Within' : 'Above'} ${sill} ${shortUnits(units)}`;

/** The columns with their heads. */
function columnsOf(answer) {
  const { isCurrent, sill, units } = answer;
  return [['day', unseen('Day')], ...(isCurrent ? [['begins', 'Slack']] : []), ['sign', unseen('Event')],
    ['time', isCurrent ? 'Max' : 'Time'], ['level', shortUnits(units)], ...(sill === null ? [] : [['above', timesName(answer)]])];
}

function columnTable(name, dates, answer) {
  const columns = columnsOf(answer);
  return element('table', {}, element('caption', { className: 'unseen' }, name),
    element('colgroup', {}, ...columns.map(([className]) => element('col', { className }))),
    element('thead', {}, element('tr', {}, ...columns.map(([className, text]) => element('th', { className, scope: 'col' }, text)))),
    ...dates.map(date => dayRows(date, answer)));
}

/** The offset with which a month begins: the offset of the last change before its first day. */
const offsetBefore = (date, { changes, offset }) => changes.filter(({ clock }) => clock.date < date).at(-1)?.clock.offset ?? offset;

function monthPart({ month, columns }, answer) {
  const name = `${MONTHS[month - 1]} ${answer.year}`, days = dates => [dates[0], dates.at(-1)].map(date => Number(date.slice(8))).join(' to ');
  const column = dates => element('div', { className: 'column' }, columnTable(`${name}, ${days(dates)}`, dates, answer));
  return element('section', { className: 'month' },
    element('h3', {}, name, ' ', element('span', {}, `UTC${offsetBefore(columns[0][0], answer)}`)), ...columns.map(column));
}

/** The unit, the datum, the clock and the place. */
function aboutLines(answer) {
  const { isCurrent, isConverted, units, ownUnits, datum, known, sill } = answer;
  const what = isCurrent ? `Current in ${units}, flood above 0 and ebb below` : `Tide in ${units}${isConverted ? ` (converted from ${ownUnits})` : ''} above ${datum ?? 'the datum of its constants'}`;
  return [
    [what, isCurrent ? directionsText(known?.notes) : '', known?.reference ? `by differences from ${known.reference}` : '',
      sill === null ? '' : thresholdText(answer)].filter(Boolean).join(' · '),
    timesText(answer), known ? stationText(known) : '',
  ].filter(Boolean);
}

function legendOf(answer) {
  const { events, times, clockOf, sill, hours } = answer;
  const signs = Object.entries(SIGNS).filter(([word]) => events.some(({ event }) => event === word));
  const texts = times.map(time => aboveText(time, clockOf));
  return [signs.map(([word, sign]) => `${sign} ${word}`).join(', ') || 'no events in this year',
    ...(sill === null ? [] : [`${timesName(answer)}: ${extentText(answer) || 'first to last whole minute, on the day on which it begins'}`]),
    ...(hours === '12' ? ['a before noon, p after it'] : []),
    ...(texts.some(text => text.includes('+')) ? ['+N: it ends N days later'] : []),
    ...(texts.some(text => text.includes('..')) ? ['..: outside this year'] : [])].join('; ');
}

/** The texts below the columns, each with its class. */
const notesOf = answer => [['legend', legendOf(answer)], ['warning', WARNING], ...answer.constants.map(line => ['constants', line])];

/** The letters of the texts above and below the columns, line by line. */
export const textLengths = answer => [...aboutLines(answer), ...notesOf(answer).map(([, text]) => text)].map(({ length }) => length);

const monthsText = months => [...new Set([months[0], months.at(-1)].map(({ month }) => MONTHS[month - 1]))].join(months.length === 2 ? ' and ' : ' to ');

function sheetOf(months, place, answer, { wide, divided, most, sheets }) {
  const { station, year, isCurrent, sill, hours } = answer;
  const kind = ['sheet', isCurrent ? 'current' : 'tide', ...(sill === null ? [] : ['with-sill']), ...(hours === '12' ? ['twelve'] : []),
    `wide-${wide}`, `months-${months.length}`, `columns-${divided}`, sizeFor(most)].join(' ');
  return element('section', { className: kind },
    element('h2', {}, station),
    element('p', { className: 'when' }, `${monthsText(months)} ${year} · sheet ${place + 1} of ${sheets.length}`),
    ...aboutLines(answer).map(line => element('p', {}, line)),
    element('div', { className: 'months' }, ...months.map(part => monthPart(part, answer))),
    ...notesOf(answer).map(([className, text]) => element('p', { className }, text)));
}

/** A year on its sheets. */
export const yearSheets = (answer, layout) => layout.sheets.map((months, place) => sheetOf(months, place, answer, layout));
