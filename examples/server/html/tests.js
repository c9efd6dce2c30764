import { offsetsOf } from './answer.js';
import { readRecords, readRows } from './csv.js';
import { hoursText, isStrongest, levelText, lineOf, readPoints, timesAbove } from './events.js';
import { bearingOf, distanceOf, distanceText, hasPlace, nearestTo, placeText } from './near.js';
import { answerOf } from './replies.js';
import { monthSheet, thresholdText, weekSheet } from './sheets.js';
import { findStations } from './search.js';
import { readStations, withNotes } from './stations.js';
import { report, same } from './testing.js';
import './tests_looks.js';
import './tests_page.js';
import {
  clockAt, dateText, daysLater, differenceText, isDate, isZone, momentText, monthsLater, startOfDay, zoneNames,
} from './zones.js';

const at = text => Date.parse(text);

function noAnswer(...reply) {
  try {
    return answerOf(...reply);
  } catch ({ kind, message, line }) {
    return [kind, message, line];
  }
}

for (const [text, rows] of [
  ['', []],
  ['a,b\n', [['a', 'b']]],
  ['a,b', [['a', 'b']]],
  ['a,\r\n,b\r\n', [['a', ''], ['', 'b']]],
  ['a,', [['a', '']]],
  ['"x, y",z\n', [['x, y', 'z']]],
  ['"say ""aye""",1\n', [['say "aye"', '1']]],
  ['"two\nlines",2\n', [['two\nlines', '2']]],
  ['"",\n', [['', '']]],
  ['Olhão,Ø\n', [['Olhão', 'Ø']]],
]) same(`CSV ${JSON.stringify(text)}`, readRows(text), rows);
same('records', readRecords('n,m\n1,2\n3,4\n'), [{ n: '1', m: '2' }, { n: '3', m: '4' }]);
same('records of a header alone', readRecords('n,m\n'), []);

for (const [decimal, shown] of [
  ['10.478568', '10.48'], ['0.005', '0.01'], ['-0.005', '-0.01'], ['-0.004999', '0.00'], ['0.004999', '0.00'], ['0', '0.00'],
  ['1.005000', '1.01'], ['-1.995', '-2.00'], ['9999.999999', '10000.00'], ['-10000', '-10000.00'],
]) same(`level ${decimal}`, levelText(decimal), shown);

for (const [moment, zone, shown] of [
  ['2025-03-09T06:59Z', 'America/New_York', '2025-03-09 01:59 -05:00'],
  ['2025-03-09T07:00Z', 'America/New_York', '2025-03-09 03:00 -04:00'],
  ['2025-11-02T05:30Z', 'America/New_York', '2025-11-02 01:30 -04:00'],
  ['2025-11-02T06:30Z', 'America/New_York', '2025-11-02 01:30 -05:00'],
  ['2025-06-01T00:00Z', 'UTC', '2025-06-01 00:00 +00:00'],
  ['2025-06-01T00:00Z', 'Asia/Kathmandu', '2025-06-01 05:45 +05:45'],
  ['2025-04-05T15:00Z', 'Australia/Lord_Howe', '2025-04-06 01:30 +10:30'],
  ['1950-01-01T04:59Z', 'America/New_York', '1949-12-31 23:59 -05:00'],
]) {
  const { date, time, offset } = clockAt(at(moment), zone);
  same(`clock at ${moment} in ${zone}`, `${date} ${time} ${offset}`, shown);
}

for (const [date, zone, begin] of [
  ['2025-06-01', 'America/New_York', '2025-06-01T04:00Z'],
  ['2025-03-09', 'America/New_York', '2025-03-09T05:00Z'],
  ['2025-03-10', 'America/New_York', '2025-03-10T04:00Z'],
  ['2025-11-02', 'America/New_York', '2025-11-02T04:00Z'],
  ['2025-11-03', 'America/New_York', '2025-11-03T05:00Z'],
  ['2018-11-04', 'America/Sao_Paulo', '2018-11-04T03:00Z'],
  ['2018-02-18', 'America/Sao_Paulo', '2018-02-18T03:00Z'],
  ['2025-11-02', 'America/Havana', '2025-11-02T04:00Z'],
  ['2011-12-30', 'Pacific/Apia', '2011-12-30T10:00Z'],
  ['2011-12-31', 'Pacific/Apia', '2011-12-30T10:00Z'],
  ['2025-06-01', 'Pacific/Kiritimati', '2025-05-31T10:00Z'],
  ['2025-06-01', 'UTC', '2025-06-01T00:00Z'],
]) same(`${date} begins in ${zone}`, momentText(startOfDay(date, zone)), begin);

const hours = (date, days, zone) => (startOfDay(daysLater(date, days), zone) - startOfDay(date, zone)) / 3_600_000;
same('a week has 168 hours', hours('2025-06-01', 7, 'America/New_York'), 168);
same('a week that springs forward has 167', hours('2025-03-06', 7, 'America/New_York'), 167);
same('a week that falls back has 169', hours('2025-10-30', 7, 'America/New_York'), 169);
same('days over a year', daysLater('2024-12-29', 7), '2025-01-05');
same('days backwards over a leap day', daysLater('2024-03-01', -1), '2024-02-29');
same('months', [monthsLater('2025-01-31', 1), monthsLater('2025-01-31', 0), monthsLater('2025-01-01', -1)], ['2025-02-01', '2025-01-01', '2024-12-01']);
same('dates', ['2025-02-28', '2025-02-29', '2025-2-1', '9999-01-01', '0001-12-31', '', null, 'x'].map(isDate),
  [true, false, false, false, false, false, false, false]);
same('zones', ['Europe/London', 'UTC', 'Atlantis', '', null].map(isZone), [true, true, false, false, false]);
same('the zones to choose', ['UTC', 'America/New_York'].map(zone => zoneNames().includes(zone)), [true, true]);
same('a date as text', dateText('2025-06-01', { day: 'numeric', month: 'long', year: 'numeric' }), '1 June 2025');

const EVENTS = readPoints(`station,moment,local,event,level,units
"Boston, Boston Harbor, Massachusetts",2025-06-01T01:34Z,2025-06-01 01:34,Low Tide,0.933188,feet
"Boston, Boston Harbor, Massachusetts",2025-06-01T03:58Z,2025-06-01 03:58,Mark Rising,3.993000,feet
"Boston, Boston Harbor, Massachusetts",2025-06-01T11:45Z,2025-06-01 11:45,Mark Falling,4.010000,feet
`);
same('a line', lineOf(EVENTS[0], 'America/New_York'), '2025-05-31 21:34 -04:00       0.93 feet  Low Tide');
const mark = (moment, event) => ({ moment: at(moment), event: `Mark ${event}` });
const [BEGIN, END] = ['2025-06-01T00:00Z', '2025-06-02T00:00Z'].map(at);
const above = (events, isAbove) => timesAbove(events, BEGIN, END, isAbove).map(time =>
  `${time.openFrom ? '..' : ''}${momentText(time.from)} ${momentText(time.to)}${time.openTo ? '..' : ''} ${hoursText(time)}`);
same('a time above', above(EVENTS, false), ['2025-06-01T03:59Z 2025-06-01T11:45Z 7 h 47 min']);
same('a time cut by the begin', above([mark('2025-06-01T01:00Z', 'Falling')], true), ['..2025-06-01T00:00Z 2025-06-01T01:00Z 1 h 01 min']);
same('a time cut by the end', above([mark('2025-06-01T22:00Z', 'Rising')], false), ['2025-06-01T22:01Z 2025-06-01T23:59Z.. 1 h 59 min']);
same('above all the time', above([], true), ['..2025-06-01T00:00Z 2025-06-01T23:59Z.. 24 h 00 min']);
same('never above', above([], false), []);
same('above from the minute after the last', above([mark('2025-06-01T23:59Z', 'Rising')], false), []);
same('above for one minute', above([mark('2025-06-01T05:00Z', 'Rising'), mark('2025-06-01T05:01Z', 'Falling')], false), ['2025-06-01T05:01Z 2025-06-01T05:01Z 0 h 01 min']);
same('two times', above([mark('2025-06-01T01:00Z', 'Falling'), mark('2025-06-01T20:00Z', 'Rising')], true).length, 2);

const LIST = readStations('Ref feet Pier (old)\nRef knots Narrows (Depth 17.6ft) Current\nSub feet Dock (east) (Pier (old))\nSub - Lost (Nowhere)\nRef feet Olhão, "Ria"\n');
same('names', LIST.map(({ name }) => name), ['Pier (old)', 'Narrows (Depth 17.6ft) Current', 'Dock (east)', 'Lost', 'Olhão, "Ria"']);
same('references', LIST.map(({ reference }) => reference), [null, null, 'Pier (old)', 'Nowhere', null]);
same('currents', LIST.map(({ isCurrent }) => isCurrent), [false, true, false, false, false]);
same('an empty list', readStations(''), []);
const find = words => findStations(LIST, words).map(({ name }) => name);
same('found by a part', find('pie'), ['Pier (old)']);
same('found by two parts', find('EAST dock'), ['Dock (east)']);
same('found without accents', find('olhao'), ['Olhão, "Ria"']);
same('found by accents', find('OLHÃO'), ['Olhão, "Ria"']);
same('first what begins with it', find('O')[0], 'Olhão, "Ria"');
same('not found', find('pier dock'), []);

same('an answer', answerOf(200, 'text/csv; charset=utf-8', 'a\n'), 'a\n');
for (const [reply, kind] of [
  [[422, 'text/plain; charset=utf-8', 'refused: no station\n'], 'refused'], [[400, 'text/plain; charset=utf-8', 'words: pair 4 has a bad value\n'], 'refused'],
  [[429, 'text/html', '<html>'], 'busy'], [[503, 'text/plain; charset=utf-8', 'no memory\n'], 'busy'], [[503, 'text/html', ''], 'busy'],
  [[504, 'text/html', ''], 'busy'], [[502, 'text/html', ''], 'unreachable'], [[404, 'text/html', ''], 'unreachable'], [[200, 'text/html', 'hotel'], 'unreachable'],
]) same(`status ${reply[0]} of ${reply[1]}`, noAnswer(...reply)[0], kind);
const QUESTION = { station: 'Atlantis', begin: '2025-06-08T00:00Z', end: '2025-06-01T00:00Z', layout: 'csv', mark: 'deep' };
for (const [line, text] of [
  ['refused: no station', 'There is no station “Atlantis” here.'],
  ['refused: no reference Boston', '“Atlantis” is computed by differences from “Boston”, which the file of constants lacks.'],
  ['refused: backward span', 'The question ends (2025-06-01T00:00Z) before it begins (2025-06-08T00:00Z).'],
  ['refused: out of years: file has 2020-01-01T00:00Z to 2030-12-31T23:59Z', 'The constants reach from 2020-01-01T00:00Z to 2030-12-31T23:59Z. Choose a date between them.'],
  ['refused: mark not here', '“Atlantis” has no times above a level: only its turns are computed, not the curve between them.'],
  ['limit: span of 9999999 minutes', 'The question exceeds a limit: span of 9999999 minutes.'],
  ['words: pair 5 has a bad value', 'The sill or limit, “deep”, is not a number from -10000 to 10000, such as 4 or -1.25, with at most six decimals.'],
  ['words: pair 2 has a bad value', 'The begin, “2025-06-08T00:00Z”, is not of its form.'],
  ['words: pair 9 has a bad value', 'The question is not valid.'],
  ['refused: for a new reason', 'The server has no answer to this question.'],
]) same(`the text for ${line}`, noAnswer(422, 'text/plain', `${line}\n`, QUESTION).slice(1), [text, line]);

const NOTES = {
  Olhão: { country: 'Portugal', identifier: 'IH 12' },
  'Pier (old)': { latitude: 42, longitude: -71, country: 'USA', identifier: 'NOS 8443970' },
  'Dock (east)': { latitude: 42, longitude: -70.9 },
  '10 miles out': { latitude: 42.5, longitude: -71 },
  '9 miles out': { latitude: 42.15, longitude: -71, zone: 'America/New_York' },
};
const NOTED = withNotes(['Olhão', '10 miles out', 'Pier (old)', '9 miles out', 'constructor', 'Dock (east)'].map(name => ({ name })), NOTES);
const named = name => NOTED.find(station => station.name === name);
same('by name, those with a digit last', NOTED.map(({ name }) => name), ['constructor', 'Dock (east)', 'Olhão', 'Pier (old)', '9 miles out', '10 miles out']);
same('a station without notes', named('constructor').notes, {});
same('a station with notes', named('9 miles out').notes.zone, 'America/New_York');
const findNoted = words => findStations(NOTED, words).map(({ name }) => name);
same('found by a country', findNoted('portugal'), ['Olhão']);
same('found by an identifier', findNoted('8443970'), ['Pier (old)']);
same('found by a name and a country', findNoted('pier usa'), ['Pier (old)']);
same('not found by two stations\' notes', findNoted('portugal usa'), []);

const spot = (latitude, longitude) => ({ latitude, longitude });
const [BOSTON, BATTERY] = [spot(42.3539, -71.0503), spot(40.7006, -74.0142)];
same('a distance', distanceOf(BOSTON, BATTERY).toFixed(1), '166.1');
same('a degree of latitude', distanceOf(spot(0, 0), spot(1, 0)).toFixed(2), '60.04');
same('no distance', distanceOf(BOSTON, BOSTON), 0);
same('over the date line', distanceOf(spot(0, 179.5), spot(0, -179.5)).toFixed(2), '60.04');
same('the other end of the world', distanceOf(spot(90, 0), spot(-90, 0)).toFixed(0), '10807');
for (const [to, bearing] of [[spot(1, 0), 0], [spot(0, 1), 90], [spot(-1, 0), 180], [spot(0, -1), 270]]) {
  same(`a bearing of ${bearing}`, bearingOf(spot(0, 0), to), bearing);
}
same('a bearing', bearingOf(BOSTON, BATTERY), 234);
same('a bearing that rounds to north', bearingOf(spot(0, 0), spot(1, -0.001)), 0);
same('distances as text', [[0.04, 0], [1, 69], [166.14, 234], [12.34, 359]].map(pair => distanceText(...pair)),
  ['at the same place', '1.0 nautical mile ENE (069°)', '166 nautical miles SW (234°)', '12.3 nautical miles N (359°)']);
same('coordinates', [BOSTON, spot(-14.28, 170)].map(placeText), ['42.3539° N, 71.0503° W', '14.2800° S, 170.0000° E']);
same('with coordinates', [BOSTON, {}, undefined, { latitude: 1 }].map(hasPlace), [true, false, false, false]);
const nearOf = (name, count) => nearestTo(named(name), NOTED, count).map(({ station }) => station.name);
same('the nearest stations', nearOf('Pier (old)', 10), ['Dock (east)', '9 miles out', '10 miles out']);
same('the nearest two', nearOf('Pier (old)', 2), ['Dock (east)', '9 miles out']);
same('none without coordinates', [nearOf('Olhão', 10), nearestTo(undefined, NOTED, 10)], [[], []]);

const [JUNE, DECEMBER] = ['2025-06-01T00:00Z', '2025-12-01T00:00Z'].map(at);
same('a clock ahead', differenceText('Europe/Berlin', 'America/New_York', [JUNE, DECEMBER]), '6 h ahead');
same('a clock behind', differenceText('America/St_Johns', 'UTC', [JUNE]), '2 h 30 min behind');
same('a clock that differs in winter', differenceText('Europe/London', 'UTC', [JUNE, DECEMBER]), '1 h ahead or level');
same('clocks that agree', differenceText('Europe/Paris', 'Europe/Berlin', [JUNE, DECEMBER]), '');

same('the strongest events', ['High Tide', 'Low Tide', 'Max Flood', 'Max Ebb', 'Min Ebb', 'Slack Ebb Begins', 'Mark Rising'].map(event => isStrongest({ event })),
  [true, false, true, true, false, false, false]);

const event = (moment, name, zone) => ({ moment: at(moment), event: name, shown: '1.00', units: 'feet', clock: clockAt(at(moment), zone) });
const NEW_YORK = 'America/New_York';
const FALL = [event('2026-11-01T08:43Z', 'High Tide', NEW_YORK), event('2026-11-01T07:00Z', 'Mark Rising', NEW_YORK)];
const midnight = startOfDay('2026-11-01', NEW_YORK);
same('offsets of what is shown', offsetsOf(midnight, FALL, [], NEW_YORK), ['-05:00']);
same('offsets of a time that the begin cuts', offsetsOf(midnight, FALL, [{ from: midnight, to: at('2026-11-01T09:00Z'), openFrom: true }], NEW_YORK), ['-05:00']);
same('offsets of a time above', offsetsOf(midnight, FALL, [{ from: midnight, to: at('2026-11-01T05:30Z'), openFrom: true }], NEW_YORK), ['-04:00', '-05:00']);
same('the offset of an empty sheet', offsetsOf(midnight, [], [], NEW_YORK), ['-04:00']);
const sheet = {
  events: FALL, times: [], dates: ['2026-11-01', '2026-11-02'], zone: NEW_YORK, sill: '4', units: 'feet', isCurrent: false, offsets: ['-05:00'],
  clockOf: moment => clockAt(moment, NEW_YORK),
};
const textOf = elements => elements.map(({ textContent }) => textContent).join('|');
same('a week without marks', /Mark|07:00|02:00/.test(textOf(weekSheet(sheet))), false);
same('a week names its sill', textOf(weekSheet(sheet)).startsWith('Events, and times above the sill at 4 feet|'), true);
same('a month without a star', textOf(monthSheet(sheet)).includes('*'), false);
same('a month with a star', textOf(monthSheet({ ...sheet, offsets: ['-04:00', '-05:00'], events: [event('2026-11-01T04:30Z', 'Low Tide', NEW_YORK), ...FALL, event('2026-11-01T20:30Z', 'Low Tide', NEW_YORK)] }))
  .includes('times with * at -04:00, the others at -05:00'), true);
same('a month without two points', textOf(monthSheet(sheet)).includes('..'), false);
same('a month with two points', textOf(monthSheet({ ...sheet, times: [{ from: midnight, to: at('2026-11-01T09:00Z'), openFrom: true }] })).includes('..: outside this month'), true);
same('a limit', thresholdText({ isCurrent: true, sill: '2', units: 'knots' }), 'limit of 2 knots');

report();
