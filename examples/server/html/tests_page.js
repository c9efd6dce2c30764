import { marksFor, wholeDays } from './answer.js';
import { directionsText, timesText, turnsOnlyText } from './about.js';
import { readSums, sha256 } from './check_sha.js';
import { readRecords } from './csv.js';
import { differencesOf } from './differences.js';
import { timesWithin } from './events.js';
import { calendarOf, csvOf, fileName, summaryOf } from './export.js';
import { placeOf } from './near.js';
import { nextEvents, nowText, readClock, stateText } from './now.js';
import { addressOf, faultsOf, isYear, questionOf } from './question.js';
import { editsBetween, findStations, searchStations } from './search.js';
import { sillFor } from './sills.js';
import { readStations, regionOf, regionsOf, twinOf, withNotes } from './stations.js';
import { same } from './testing.js';
import { isConverted, markOf, pointIn, shortUnits, sillIn, sizeOf, timeIn, unitsShown } from './units.js';
import { clockAt, clockName, utcText } from './zones.js';

const at = text => Date.parse(text);

// The search: names as XTide has them.
const NAMES = `Ref feet Boston, Boston Harbor, Massachusetts
Ref feet Boston Light, Boston Harbor, Massachusetts
Sub knots Boston Islands, 1 mile south from, Dixon Entrance, Alaska Current (Wrangell Narrows, Alaska Current)
Ref feet Portland, Casco Bay, Maine
Ref feet Portland, Morrison Street Bridge, Oregon
Sub feet Portland Head Light, Casco Bay, Maine (Portland, Casco Bay, Maine)
Ref feet San Francisco, San Francisco Bay, California
Sub feet San Francisco Bar, California (San Francisco, San Francisco Bay, California)
Ref feet Alameda, San Francisco Bay, California
Sub feet South San Francisco, San Francisco Bay, California (San Francisco, San Francisco Bay, California)
Ref feet The Battery, New York Harbor, New York
Sub knots Battery, southwest of, Ashley River, South Carolina Current (Charleston Harbor, South Carolina Current)
Sub feet New Rochelle, New York (The Battery, New York Harbor, New York)
Ref knots Wrangell Narrows, Alaska Current
Ref knots Deception Pass (Narrows) (Depth 17.6ft), Rosario Strait, Washington Current
Ref feet Deception Pass St. Park, Bowman Bay, Fidalgo I., Washington
Ref feet Cornet Bay, Deception Pass, Washington
Ref knots^2 Hell Gate (off Mill Rock), New York Current
Sub feet Hell Gate, Wards Island, East River, New York (The Battery, New York Harbor, New York)
Sub feet Boston Light, Boston Harbor, Massachusetts (sub) (Boston, Boston Harbor, Massachusetts)
Sub feet St. Augustine, city dock, Florida (Boston, Boston Harbor, Massachusetts)
Ref feet Galveston Pier 21, Galveston Channel, Texas
Ref feet Seattle, Puget Sound, Washington
Ref feet Midway
`;
const LIST = withNotes(readStations(NAMES), { 'Seattle, Puget Sound, Washington': { country: 'USA', identifier: 'NOS 9447130' } });
const firstOf = text => findStations(LIST, text)[0]?.name ?? '';
for (const [text, name] of [
  ['boston', 'Boston, Boston Harbor, Massachusetts'], ['bost', 'Boston, Boston Harbor, Massachusetts'], ['BOSTON  Harbor', 'Boston, Boston Harbor, Massachusetts'],
  ['boston light', 'Boston Light, Boston Harbor, Massachusetts'], ['boston alaska', 'Boston Islands, 1 mile south from, Dixon Entrance, Alaska Current'],
  ['portland', 'Portland, Casco Bay, Maine'], ['portland oregon', 'Portland, Morrison Street Bridge, Oregon'], ['head light', 'Portland Head Light, Casco Bay, Maine'],
  ['san francisco', 'San Francisco, San Francisco Bay, California'], ['san fran bar', 'San Francisco Bar, California'], ['sanfrancisco', 'San Francisco, San Francisco Bay, California'],
  ['battery', 'The Battery, New York Harbor, New York'], ['new york', 'The Battery, New York Harbor, New York'], ['new york harbour', 'The Battery, New York Harbor, New York'],
  ['deception pass', 'Deception Pass (Narrows) (Depth 17.6ft), Rosario Strait, Washington Current'], ['deception', 'Deception Pass St. Park, Bowman Bay, Fidalgo I., Washington'],
  ['hell gate', 'Hell Gate, Wards Island, East River, New York'], ['9447130', 'Seattle, Puget Sound, Washington'], ['saint augustine', 'St. Augustine, city dock, Florida'],
  ['bostn', 'Boston, Boston Harbor, Massachusetts'], ['prtland', 'Portland, Casco Bay, Maine'], ['galvestno', 'Galveston Pier 21, Galveston Channel, Texas'],
  ['deceptoin pas', 'Deception Pass St. Park, Bowman Bay, Fidalgo I., Washington'], ['seatle washingtn', 'Seattle, Puget Sound, Washington'], ['xyzzy', ''],
]) same(`first of “${text}”`, firstOf(text), name);
same('references before the others', findStations(LIST, 'boston light').map(({ reference }) => reference === null), [true, false]);
same('found as typed, and near what is typed', ['boston', 'bostn', 'xyzzy'].map(text => searchStations(LIST, text).isNear), [false, true, true]);
same('edits', [['boston', 'bostn'], ['ab', 'ba'], ['kitten', 'sitting'], ['same', 'same'], ['a', 'abcd']].map(pair => editsBetween(...pair, 3)), [1, 1, 3, 0, 3]);
same('edits beyond a bound', editsBetween('boston', 'seattle', 2), 3);
const named = name => LIST.find(station => station.name === name);
same('a twin', twinOf(named('Boston Light, Boston Harbor, Massachusetts (sub)'), LIST).name, 'Boston Light, Boston Harbor, Massachusetts');
same('no twin', twinOf(named('Boston, Boston Harbor, Massachusetts'), LIST), null);
same('a hydraulic current', LIST.filter(({ isHydraulic }) => isHydraulic).map(({ name }) => name), ['Hell Gate (off Mill Rock), New York Current']);
same('regions', ['Boston, Boston Harbor, Massachusetts (sub)', 'Narrows (a), Alaska Current (16d)', 'Rock, Alaska Current - IGNORE', 'Midway'].map(regionOf),
  ['Massachusetts', 'Alaska', 'Alaska', '']);
same('regions by name', regionsOf(LIST).map(([region, members]) => `${region} ${members.length}`).slice(0, 3), ['Alaska 2', 'California 4', 'Florida 1']);
same('stations without a region last', regionsOf(LIST).at(-1)[1].map(({ name }) => name), ['Midway']);

// Places.
for (const [text, place] of [
  ['42.35 -71.05', [42.35, -71.05]], ['42.35, -71.05', [42.35, -71.05]], ['42.35N 71.05W', [42.35, -71.05]], ['33.86 s, 151.2 e', [-33.86, 151.2]],
  ["42° 21.2' N, 71° 3' W", [42 + 21.2 / 60, -71.05]], ['42°21.2′N 71°3′W', [42 + 21.2 / 60, -71.05]], ['-14 170', [-14, 170]],
]) same(`the place ${text}`, Object.values(placeOf(text)), place);
for (const text of ['', 'boston', '42.35', '95 10', '10 190', '8443970', "42° 75' N, 71° W", 'pier 21 4']) same(`no place ${text}`, placeOf(text), null);

// Addresses.
const faults = search => faultsOf(search).map(({ text }) => text);
same('a day that is not there', faults('?date=2026-13-45'), ['The date, “2026-13-45”, is not a day of the calendar. Write it as 2026-12-31, in a year from 0002 to 9998.']);
same('a year that is not there', faults('?year=12345'), ['The year, “12345”, is not a year from 0002 to 9998.']);
same('faults by their keys', faultsOf('?paper=A5&view=day&zone=Atlantis&units=fathoms&hours=13&date=2026-02-30').map(({ key }) => key), ['date', 'view', 'zone', 'units', 'hours', 'paper']);
same('no faults', faults('?date=2026-12-31&year=2026&view=month&zone=UTC&units=metres&hours=12&paper=A4&sill=x'), []);
same('values that are left out', faults('?date=&year='), []);
same('a value with a dollar', faults('?view=$%26'), ['The view, “$&”, is neither “week” nor “month”.']);
same('years', ['2026', '0002', '0001', '9999', '12345', 'x', ''].map(isYear), [true, true, false, false, false, false, false]);
same('a question', questionOf('?station=A&date=2026-02-03&sill=4,25&units=metres&hours=12&view=month', 'UTC'),
  { station: 'A', zone: 'UTC', date: '2026-02-03', view: 'month', sill: '4.25', units: 'metres', hours: '12' });
same('a usual question', (({ date, ...rest }) => rest)(questionOf('?station=A&date=2026-02-31', 'Asia/Tokyo')),
  { station: 'A', zone: 'Asia/Tokyo', view: 'week', sill: null, units: null, hours: '24' });
same('an address', addressOf('?station=A&sill=4', { sill: null, date: '2026-01-01' }), '?station=A&date=2026-01-01');

same('whole days of a file', [['America/New_York', false], ['America/New_York', true], ['UTC', false], ['Pacific/Kiritimati', false]]
  .map(([zone, isMoved]) => wholeDays(at('2020-01-01T00:00Z'), at('2030-12-31T23:59Z'), zone, isMoved)),
[['2020-01-01', '2030-12-30'], ['2020-01-02', '2030-12-29'], ['2020-01-01', '2030-12-31'], ['2020-01-02', '2030-12-31']]);

// Units.
const feet = { level: 10.478568, shown: '10.48', units: 'feet' };
same('feet in metres', pointIn(feet, 'metres'), { level: 3.193868, shown: '3.19', units: 'metres' });
same('feet in feet', [pointIn(feet, 'feet'), pointIn(feet, null)], [feet, feet]);
same('meters in feet', pointIn({ level: 1, shown: '1.00', units: 'meters' }, 'feet'), { level: 3.28084, shown: '3.28', units: 'feet' });
same('meters in metres', pointIn({ level: 1, shown: '1.00', units: 'meters' }, 'metres').units, 'meters');
same('knots', pointIn({ level: 1, shown: '1.00', units: 'knots' }, 'metres').units, 'knots');
same('a level of 0 without a sign', pointIn({ level: -0.01, shown: '-0.01', units: 'feet' }, 'metres').shown, '0.00');
same('half a hundredth away from zero', pointIn({ level: -0.016404, shown: '-0.02', units: 'feet' }, 'metres').shown, '-0.01');
same('units that are shown', [unitsShown('feet', 'metres'), unitsShown('feet', null), unitsShown('knots', 'metres'), shortUnits('meters')], ['metres', 'feet', 'knots', 'm']);
same('converted', [isConverted('feet', 'metres'), isConverted('meters', 'metres'), isConverted('feet', null)], [true, false, false]);
same('a sill in the station\'s units', ['1.2192', '4', '-1', 'deep', '1e2'].map(sill => markOf(sill, 'feet', 'metres')), ['4', '13.12336', '-3.28084', 'deep', '1e2']);
same('a sill that is not converted', markOf('4.10', 'feet', null), '4.10');
same('a sill in other units', [sillIn('4', 'feet', null, 'metres'), sillIn('1.2192', 'feet', 'metres', null), sillIn('4', 'feet', null, 'feet')], ['1.2192', '4', '4']);
same('times of day', ['00:00', '00:59', '11:05', '12:00', '23:59'].map(time => timeIn(time, '12')), ['12:00 am', '12:59 am', '11:05 am', '12:00 pm', '11:59 pm']);
same('a time of 24 hours', timeIn('15:00', '24'), '15:00');
same('sizes of limits', ['2', '-2', '+2.5'].map(sizeOf), ['2', '2', '2.5']);
same('the marks of a limit and a sill', [marksFor('-2', 'knots', null), marksFor('4', 'feet', null), marksFor('1.2192', 'feet', 'metres')], [['2', '-2'], ['4'], ['4']]);

// A sill for a vessel.
const sill = (depth, draught, clearance) => sillFor({ depth, draught, clearance });
same('a sill', [sill('6', '9.5', '1'), sill('6', '9,5', ''), sill('-2', '3', '0.5'), sill('0.1', '0.2', '0')], ['4.5', '3.5', '5.5', '0.1']);
same('no sill', [sill('', '9', '1'), sill('6', 'x', '1'), sill('6', '9', 'y')], [null, null, null]);

// The clock of the server, and the line below the title.
const CLOCK = readClock(`Pier
Now 2026-12-01 06:14 UTC      -0.46 feet  Rising
2026-12-01 09:27 UTC       9.58 feet  High Tide
2026-12-01 15:29 UTC      -0.79 feet  Low Tide
2026-12-01 21:46 UTC       9.89 feet  High Tide
`);
same('a clock', [CLOCK.moment, CLOCK.level, CLOCK.isRising, CLOCK.events.length, CLOCK.events[1].level], [at('2026-12-01T06:14Z'), -0.46, true, 3, -0.79]);
const now = (clock, hours = '24') => nowText({ ...clock, state: stateText(clock) }, { zone: 'America/New_York', hours }).join(' ');
same('now', now(CLOCK), 'Now -0.46 feet, rising · high 9.58 feet at 04:27, in 3 h 13 min · low -0.79 feet at 10:29, in 9 h 15 min');
same('now by 12 hours', now(CLOCK, '12').includes('at 4:27 am, in'), true);
same('next without a level', nowText({ moment: CLOCK.moment, events: CLOCK.events, state: '' }, { zone: 'UTC', hours: '24' })[0], 'Next');
const RACE = readClock(`Race
Now 2026-12-01 22:14 UTC      -1.26 knots  Rising
2026-12-02 09:27 UTC      -0.01 knots  Slack Flood Begins
2026-12-02 12:29 UTC       3.79 knots  Max Flood
2026-12-02 15:29 UTC       0.03 knots  Slack Ebb Begins
2026-12-02 18:29 UTC      -2.79 knots  Max Ebb
`);
same('now at a current', now(RACE), 'Now 1.26 knots of ebb, easing · slack, then flood at Wed 04:27, in 11 h 13 min · max flood 3.79 knots at Wed 07:29, in 14 h 15 min');
same('the next slack is told', nextEvents(RACE.events.slice(1)).map(({ event }) => event), ['Max Flood', 'Slack Ebb Begins']);
same('the next slack after two others', nextEvents([{ event: 'Max Flood' }, { event: 'Min Flood' }, { event: 'Slack Ebb Begins' }]).length, 2);
same('a current with its direction', stateText({ level: 2, shown: '2.00', units: 'knots', isRising: true }, { flood_direction: 8 }), '2.00 knots of flood towards 008°, growing');
same('slack water', stateText({ level: -0.04, shown: '-0.04', units: 'knots', isRising: true }), 'slack, flood begins');
same('directions', [directionsText({ flood_direction: 108, ebb_direction: 288 }), directionsText({ ebb_direction: 8 }), directionsText(undefined)], ['flood 108°, ebb 288°', 'ebb 008°', '']);

// Clocks by name.
same('clocks by name', [['America/New_York', '2026-12-01'], ['America/New_York', '2026-06-01'], ['Europe/London', '2026-06-01'], ['Asia/Kathmandu', '2026-06-01'], ['UTC', '2026-06-01'],
  ['Pacific/Honolulu', '2026-06-01']].map(([zone, date]) => clockName(zone, at(date))), ['EST (UTC-5)', 'EDT (UTC-4)', 'BST (UTC+1)', 'UTC+5:45', 'UTC', 'HST (UTC-10)']);
same('offsets by name', [0, -16_200_000, 3_600_000].map(utcText), ['UTC', 'UTC-4:30', 'UTC+1']);
const times = (begin, end, offsets, own) => timesText({ zone: 'America/New_York', begin: at(begin), end: at(end), offsets, known: { notes: { zone: own } } });
same('times at the station', times('2026-12-01T05:00Z', '2026-12-08T05:00Z', ['-05:00'], 'America/New_York'), 'Times in EST (UTC-5), local time at the station');
same('times over a change', times('2026-03-05T05:00Z', '2026-03-12T04:00Z', ['-05:00', '-04:00'], 'America/New_York'),
  'Times in EST (UTC-5), from Sun 8 Mar 03:00 in EDT (UTC-4), local time at the station');
same('times of another clock', times('2026-12-01T05:00Z', '2026-12-08T05:00Z', ['-05:00'], 'America/Chicago'), 'Times in EST (UTC-5), the clock of America/New_York');
same('turns only', [{ isTurnsOnly: false }, { isTurnsOnly: true, isCurrent: true, known: { reference: 'Race' }, wantedSill: '2' }].map(turnsOnlyText),
  ['', 'This station has slack waters and greatest speeds only. They follow from Race, and nothing is known about the speed in between. So there are no times within a limit here.']);

// The times within a limit, by the marks of plus and of minus it.
const mark = (moment, event) => ({ moment: at(moment), event: `Mark ${event}` });
const span = ['2026-12-01T00:00Z', '2026-12-02T00:00Z'].map(at);
const within = timesWithin({ marks: [mark('2026-12-01T06:00Z', 'Rising'), mark('2026-12-01T09:00Z', 'Falling')],
  lowMarks: [mark('2026-12-01T04:00Z', 'Rising'), mark('2026-12-01T11:00Z', 'Falling')] }, 2, ...span, -3);
same('within a limit, from the minute after a mark to the minute of a mark', within.map(({ from, to }) => [from, to].map(moment => new Date(moment).toISOString().slice(11, 16))),
  [['04:01', '06:00'], ['09:01', '11:00']]);

// The files to take along.
const zone = 'America/New_York', moments = ['2026-12-01T09:27Z', '2026-12-01T15:29Z'].map(at);
const answer = {
  station: 'Pier; "A", Bay', zone, units: 'feet', view: 'week', dates: ['2026-12-01'], sill: '4', isCurrent: false, known: { notes: { latitude: 42.5, longitude: -71 } },
  events: [{ moment: moments[0], event: 'High Tide', level: 9.58, shown: '9.58', units: 'feet' }, { moment: moments[1], event: 'Low Tide', level: -0.02, shown: '-0.02', units: 'feet' }],
  times: [{ from: moments[0], to: moments[1], openFrom: false, openTo: true }],
};
const [header, high] = csvOf(answer).split('\n');
same('CSV\'s header', header, 'station,moment,local,offset,event,level,units,end_moment,end_local,end_offset');
same('CSV\'s row', high, '"Pier; ""A"", Bay",2026-12-01T09:27Z,2026-12-01 04:27,-05:00,High Tide,9.580000,feet,,,');
same('CSV read back', readRecords(csvOf(answer)).map(({ station, event, end_local: end }) => [station, event, end]),
  [[answer.station, 'High Tide', ''], [answer.station, 'Above 4 feet', '2026-12-01 10:29'], [answer.station, 'Low Tide', '']]);
const calendar = calendarOf(answer, at('2026-11-30T12:00Z'));
same('a calendar\'s lines', calendar.split('\r\n').every(line => new TextEncoder().encode(line).length <= 75), true);
const unfolded = calendar.replaceAll('\r\n ', '');
for (const line of ['SUMMARY:High 9.6 ft', 'SUMMARY:Low 0.0 ft', 'SUMMARY:Above 4 ft', 'LOCATION:Pier\\; "A"\\, Bay', 'GEO:42.5;-71', 'TRANSP:TRANSPARENT', 'DTEND:20261201T153000Z', 'DTSTAMP:20261130T120000Z']) {
  same(`a calendar's line ${line}`, unfolded.includes(`${line}\r\n`), true);
}
same('an entry names its sill', unfolded.includes('DESCRIPTION:It is above the sill at 4 feet. It goes on after this calendar ends.'), true);
same('an entry for each event and each time', calendar.match(/BEGIN:VEVENT/g).length, 3);
same('summaries', [['Max Ebb', -2.34], ['Slack Flood Begins', 0.01], ['Min Flood', 0.3]].map(([event, level]) => summaryOf({ event, level }, 'knots')),
  ['Max ebb -2.3 kn', 'Slack, flood begins', 'Min flood 0.3 kn']);
same('file names', [fileName(answer, 'csv'), fileName({ ...answer, view: 'month' }, 'ics'), fileName({ ...answer, station: 'Olhão', view: 'year' }, 'txt')],
  ['pier-a-2026-12-01-week.csv', 'pier-a-2026-12.ics', 'olhao-2026.txt']);
same('a clock of UTC', clockAt(moments[0], 'UTC').time, '09:27');

// The differences of a subordinate station.
const ROWS = readRecords(`name,reference,high_add,low_add,high_times,low_times,high_plus,low_plus,flood_add,ebb_add
Dock,Pier,0:05,-1:12,0.930,1.000,0.100,-0.25,,
Sound,Race,,0:00,1,,0,,0:25,-00:04
Old,Race,24:00,0:01,1.5,2,,,,
`);
const differences = (place, isCurrent, ownUnits) => differencesOf(ROWS[place], { isCurrent, ownUnits });
same('differences of a tide', differences(0, false, 'feet'), ['High waters: 0 h 05 min later, levels × 0.93 + 0.1 feet', 'Low waters: 1 h 12 min earlier, levels − 0.25 feet']);
same('differences of a current', differences(1, true, 'knots'),
  ['Greatest floods: at the same time', 'Greatest ebbs: at the same time', 'Slacks before flood: 0 h 25 min later', 'Slacks before ebb: 0 h 04 min earlier']);
same('differences of a current without times of slacks', differences(2, true, 'knots'), ['Greatest floods: 24 h 00 min later, levels × 1.5', 'Greatest ebbs: 0 h 01 min later, levels × 2']);

// The SHA-256 that is pasted into the checker.
const SUM = sha256(new TextEncoder().encode('abc')), OTHER = sha256(new Uint8Array());
same('a SHA-256', [SUM.slice(0, 8), OTHER.slice(0, 8)], ['ba7816bf', 'e3b0c442']);
for (const [about, text] of [
  ['as sha256sum prints it', `${SUM}  constants.txt\n`], ['in upper-case', ` ${SUM.toUpperCase()} `], ['in groups', SUM.replace(/.{8}/g, '$& ')],
  ['in pairs with colons', SUM.match(/../g).join(':')], ['over two lines', `${SUM.slice(0, 40)}\n${SUM.slice(40)}`],
  ['after a word', `SHA-256: ${SUM}`], ['as another program prints it', `SHA2-256(constants.txt)= ${SUM}`], ['after digits', `2027 ${SUM}`],
]) same(`a SHA-256 ${about}`, readSums(text), { sums: [SUM], fault: '' });
same('two lines of sha256sum', readSums(`${SUM}  constants.txt\n${OTHER}  offsets.csv\n`).sums, [SUM, OTHER]);
const at12 = character => readSums(`${SUM.slice(0, 11)}${character}${SUM.slice(12)}  constants.txt`);
for (const [character, text] of [['O', '“O”'], ['g', '“g”'], ['…', '“…” (U+2026)'], ['\u0430', '“\u0430” (U+0430)'], ['\u200b', 'U+200B'], ['\u{1f30a}', '“\u{1f30a}” (U+1F30A)']]) {
  same(`a SHA-256 with ${text}`, at12(character),
    { sums: [], fault: `This is no SHA-256: its character 12 is ${text}. A SHA-256 has only the digits 0 to 9 and the letters a to f.` });
}
for (const [text, fault] of [
  [SUM.slice(1), 'it has 63 characters. A SHA-256 has 64.'], [`${SUM}${SUM}`, 'it has 128 characters. A SHA-256 has 64.'], ['ABC def', 'it has 6 characters. A SHA-256 has 64.'],
  ['the sum', 'its character 1 is “t”. A SHA-256 has only the digits 0 to 9 and the letters a to f.'],
]) same(`no SHA-256: ${text}`, readSums(text), { sums: [], fault: `This is no SHA-256: ${fault}` });
same('nothing pasted', readSums(' \n'), { sums: [], fault: '' });
