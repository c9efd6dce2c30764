import { rangeOf } from './chart.js';
import { timesWithin } from './events.js';
import { freeX, isCrowded, placeLabels, roomFor, stepsOf } from './labels.js';
import { extentText, lackText, monthSheet, thresholdText, weekSheet } from './sheets.js';
import { same } from './testing.js';
import { aboveText, columnsOf, columnsOn, heightOf, layoutOf, linesOf, shortTime } from './year_days.js';
import { yearSheets } from './year_sheets.js';
import { clockAt, momentText } from './zones.js';

const at = text => Date.parse(text);
const mark = (time, event) => ({ moment: at(`2026-12-01T${time}Z`), event: `Mark ${event}` });
const [BEGIN, END] = ['2026-12-01T00:00Z', '2026-12-02T00:00Z'].map(at);

/** The times within 2 knots, as text, by the marks of 2 and of -2, with a level at the begin. */
const within = (marks, lowMarks, level) => timesWithin({ marks, lowMarks }, 2, BEGIN, END, level).map(time =>
  `${time.openFrom ? '..' : ''}${momentText(time.from).slice(11, 16)}-${momentText(time.to).slice(11, 16)}${time.openTo ? '..' : ''}`);

for (const [about, marks, lowMarks, level, times] of [
  ['from ebb to flood', [mark('05:00', 'Rising')], [mark('04:00', 'Rising')], -3, ['04:01-05:00']],
  ['from flood to ebb', [mark('04:00', 'Falling')], [mark('05:00', 'Falling')], 3, ['04:01-05:00']],
  ['a flood below the limit', [], [mark('04:00', 'Rising'), mark('09:00', 'Falling')], -3, ['04:01-09:00']],
  ['a time that the begin cuts', [mark('04:00', 'Rising')], [], 1, ['..00:00-04:00']],
  ['a time that the end cuts', [mark('20:00', 'Falling')], [], 3, ['20:01-23:59..']],
  ['all the time', [], [], 0, ['..00:00-23:59..']],
  ['at no time', [], [], 3, []],
  ['at no time, by ebb', [], [], -3, []],
  ['the limit itself', [], [], 2, ['..00:00-23:59..']],
  ['minus the limit itself', [], [], -2, []],
  ['one minute', [mark('04:01', 'Rising')], [mark('04:00', 'Rising')], -3, ['04:01-04:01']],
  ['through both sides in a minute', [mark('04:00', 'Rising')], [mark('04:00', 'Rising')], -3, []],
  ['through both sides in a minute, to ebb', [mark('04:00', 'Falling')], [mark('04:00', 'Falling')], 3, []],
  ['from the minute after the last', [mark('23:59', 'Falling')], [], 3, []],
  ['a day', [mark('03:00', 'Rising'), mark('08:00', 'Falling'), mark('16:00', 'Rising'), mark('20:00', 'Falling')],
    [mark('02:00', 'Rising'), mark('09:00', 'Falling'), mark('15:00', 'Rising'), mark('22:00', 'Falling')], -4,
    ['02:01-03:00', '08:01-09:00', '15:01-16:00', '20:01-22:00']],
]) same(`within the limit: ${about}`, within(marks, lowMarks, level), times);

const clockOf = moment => clockAt(moment, 'UTC');
const slack = { moment: at('2026-12-01T04:30Z'), event: 'Slack Flood Begins', level: -0.04, shown: '-0.04', units: 'knots' };
const time = (from, to) => ({ from: at(from), to: at(to), openFrom: false, openTo: false });
const answer = {
  sill: '2', isCurrent: true, units: 'knots', times: [time('2026-12-01T04:01Z', '2026-12-01T05:00Z')], clockOf, offsets: ['+00:00'],
  dates: ['2026-12-01', '2026-12-02'], events: [{ ...slack, clock: clockOf(slack.moment) }],
};
const textOf = elements => elements.map(({ textContent }) => textContent).join('|');
const [week, month] = [weekSheet, monthSheet].map(sheet => textOf(sheet(answer)));
same('a limit is named without a sign', thresholdText({ ...answer, sill: '-2' }), 'limit of 2 knots');
same('a week has the times within the limit', week.includes('04:01–05:00') && week.includes('Within the limit of 2 knots'), true);
same('a month has them', month.includes('04:01–05:00') && month.includes('Within the limit of 2 knots'), true);
same('a slack has no level', /0\.04/.test(week + month), false);
same('a table of a day has heads', [...weekSheet(answer).at(-1).querySelectorAll('.events th')].map(({ scope, textContent }) => `${scope} ${textContent}`),
  ['col Time', 'col Level in knots', 'col Event']);
same('a time over midnight is on both days', textOf(weekSheet({
  ...answer, dates: ['2026-12-01', '2026-12-02', '2026-12-03'], times: [time('2026-12-01T22:01Z', '2026-12-02T01:00Z')],
})).match(/22:01–Wed 01:00|Tue 22:01–01:00/g), ['22:01–Wed 01:00', 'Tue 22:01–01:00']);
const whole = { from: BEGIN, to: END - 60_000, openFrom: true, openTo: true };
same('all, none or some of a month', [[], [whole], answer.times, [whole, whole]].map(times => extentText({ sill: '2', times, view: 'month' })),
  ['at no time of this month', 'all of this month', '', '']);
same('a month without a sill', extentText({ sill: null, times: [], view: 'month' }), '');
same('what a month lacks', [[], answer.times].map(times => lackText({ ...answer, view: 'month', times, events: times.length === 0 ? [] : answer.events })),
  ['There are no events in this month. Within the limit of 2 knots: at no time of this month.', '']);
same('times on the day on which they begin', [[], answer.times].map(times => textOf(monthSheet({ ...answer, view: 'month', times })).includes('on the day on which they begin')), [false, true]);
same('a day without a time', textOf(weekSheet({ ...answer, times: [] })).includes('at no time'), true);

const AREA = { x: 0, y: 0, w: 400, h: 200 };
const label = (x, y, isAbove) => ({ x, y, isAbove, width: 30, length: 60 });
const corners = boxes => boxes.map(({ left, top, isUpright }) => `${left} ${top}${isUpright ? ' upright' : ''}`);

same('labels above and below', corners(placeLabels([label(100, 100, true), label(200, 100, false)], AREA)), ['85 67', '185 107']);
same('labels stay within the picture', corners(placeLabels([label(0, 100, true), label(400, 100, true)], AREA)), ['2 67', '368 67']);
same('labels that would cross', corners(placeLabels([label(100, 100, true), label(110, 100, true), label(120, 100, true)], AREA)), ['85 67', '95 41', '120 67']);
same('labels of more points than fit side by side', corners(placeLabels([94, 100, 106, 112, 118, 124].map(x => label(x, 100, true)), AREA)).filter(text => text.endsWith('upright')).length, 0);
same('a label at the upper edge', corners(placeLabels([label(100, 10, true)], AREA)), ['85 17']);
same('a label beside another text, and beside the curve', corners(placeLabels([label(100, 100, true), label(200, 100, false)], AREA,
  [{ left: 60, right: 90, top: 60, bottom: 90 }], [{ left: 180, right: 190, top: 100, bottom: 140 }])), ['92.5 67', '192.5 107']);
same('crowded', [[10, 50], [10, 40], [10], []].map(positions => isCrowded(positions, 30)), [false, true, false, false]);
same('room for labels', [[10, 50], [10, 40]].map(positions => roomFor(positions, 30)), [37, 74]);
same('a free place', freeX(40, [0, 10], [{ left: 0, right: 50, top: 0, bottom: 10 }, { left: 0, right: 400, top: 20, bottom: 30 }], AREA), { left: 54, count: 0 });
const steps = (low, high) => stepsOf(low, high, 300).map(({ label: text }) => text);
same('steps', steps(-3, 17), ['−2', '0', '2', '4', '6', '8', '10', '12', '14', '16']);
same('small steps', steps(-0.1, 0.4), ['−0.10', '−0.05', '0.00', '0.05', '0.10', '0.15', '0.20', '0.25', '0.30', '0.35', '0.40']);
same('a range with room', rangeOf([0, 10], 20 + 37 + 63 + 100, 37, 63).map(value => value.toFixed(1)), ['-6.3', '13.7']);
same('room around a level that stays', rangeOf([2, 2], 0, 37, 37).every(Number.isFinite), true);

const point = (event, at) => ({ event, clock: { time: at } });
const linesText = points => linesOf(points).map(({ change, slack, turn }) => (change ? 'change' : [slack, turn].map(it => it?.clock.time ?? '').join(' ')));
same('a maximum is beside its slack', linesText([point('Slack Flood Begins', '01:00'), point('Max Flood', '04:00'), point('Slack Ebb Begins', '07:00')]), ['01:00 04:00', '07:00 ']);
same('a maximum before the first slack', linesText([point('Max Ebb', '01:00'), point('Slack Flood Begins', '04:00')]), [' 01:00', '04:00 ']);
same('a maximum of the other direction is in a line of its own', linesText([point('Slack Flood Begins', '01:00'), point('Max Ebb', '04:00')]), ['01:00 ', ' 04:00']);
same('a change of the clock', linesText([point('High Tide', '01:00'), { isChange: true }, point('Low Tide', '08:00')]), [' 01:00', 'change', ' 08:00']);
same('a short time', ['3:05 pm', '12:00 am', '15:05'].map(text => shortTime({ time: text })), ['3:05p', '12:00a', '15:05']);
same('a time on a sheet', aboveText(time('2026-12-01T04:01Z', '2026-12-01T05:00Z'), clockOf), '04:01–05:00');
same('a time over two days', aboveText(time('2026-12-01T04:01Z', '2026-12-03T05:00Z'), clockOf), '04:01–05:00 +2');
same('a time cut by the year', aboveText({ ...time('2026-01-01T00:00Z', '2026-01-01T05:00Z'), openFrom: true }, clockOf), '..–05:00');
same('a time cut by the end of the year', aboveText({ ...time('2026-12-28T04:01Z', '2026-12-31T23:59Z'), openTo: true }, clockOf), '04:01–..');
same('the lines of a day', [[[], []], [[1, 2, 3], ['a']], [[1], ['a', 'b', 'c', 'd']]].map(([lines, above]) => heightOf({ lines, above })), [2, 3, 4]);

const yearOf = traits => ({ year: 2027, sill: null, hours: '24', isCurrent: false, events: [], points: [], times: [], clockOf, ...traits });
const sheetsOf = traits => {
  const year = yearOf({ station: 'Pier', view: 'year', units: 'feet', ownUnits: 'feet', datum: null, zone: 'UTC', begin: at('2027-01-01T00:00Z'), end: at('2028-01-01T00:00Z'),
    offsets: ['+00:00'], offset: '+00:00', changes: [], constants: [], ...traits });
  return textOf(yearSheets(year, layoutOf(year)));
};
same('each month has its year and its clock', sheetsOf({}).match(/[A-Z][a-z]+ 2027 UTC\+00:00/g).length, 12);
same('a year without events', sheetsOf({}).includes('no events in this year'), true);
same('a year names its sill', sheetsOf({ sill: '4' }).includes('above the datum of its constants · sill at 4 feet'), true);
same('a year below its sill', sheetsOf({ sill: '14' }).includes('Above 14 ft: at no time of this year'), true);
same('a year above its sill', sheetsOf({ sill: '-14', times: [{ from: at('2027-01-01T00:00Z'), to: at('2027-12-31T23:59Z'), openFrom: true, openTo: true }] })
  .includes('Above -14 ft: all of this year'), true);
const long = [time('2026-12-01T04:01Z', '2026-12-03T05:00Z')];
same('the columns of a sheet of tides', [{}, { hours: '12' }, { sill: '4' }, { sill: '4', times: long }, { sill: '4', hours: '12' }, { sill: '4', hours: '12', times: long }]
  .map(traits => columnsOn(yearOf(traits))), [6, 4, 4, 4, 4, 3]);
same('the columns of a sheet of currents', [{}, { events: [{ shown: '-10.25' }] }, { hours: '12' }, { sill: '2' }]
  .map(traits => columnsOn(yearOf({ isCurrent: true, ...traits }))), [6, 4, 4, 3]);
const daysOf = columns => columns.map(dates => dates.map(date => Number(date.slice(8)))).map(days => `${days[0]}-${days.at(-1)}`).join(' ');
same('the columns of a month', [2, 3, 4].map(count => daysOf(columnsOf(2027, 2, count))), ['1-16 17-28', '1-11 12-21 22-28', '1-8 9-16 17-24 25-28']);
const daily = count => Array.from({ length: 365 * count }, (_, place) => ({ event: 'Max Flood', clock: { date: new Date(Date.UTC(2027, 0, 1 + Math.floor(place / count))).toISOString().slice(0, 10), time: '00:00' } }));
const laid = count => (({ wide, divided, sheets, most }) => [wide, divided, sheets.length, most].join(' '))(layoutOf(yearOf({ isCurrent: true, points: daily(count) })));
same('sheets of days of some lines', [2, 5, 6, 8, 14, 20].map(laid), ['6 2 4 32', '6 2 4 80', '6 3 6 66', '6 6 12 48', '6 6 24 42', '6 6 24 60']);
