import { isPeak, Lines, readCertificate, readPeak } from './check_certificate.js';
import { readConstants } from './check_constants.js';
import { Curve, T, UNIT } from './check_curve.js';
import { readOffsets } from './check_offsets.js';
import { conclude, momentText, rounded, Verdict } from './check_text.js';

const MILLION = 1_000_000n;
const KINDS = ['high', 'low', 'flood', 'ebb', 'rise', 'fall'];
const LABELS = { flood: 'Slack Flood Begins', ebb: 'Slack Ebb Begins', rise: 'Mark Rising', fall: 'Mark Falling' };
const UNMOVED = { add: 0, times: 1_000_000, plus: 0 };
const refuse = line => conclude(4, `refused: ${line}`);
const reject = line => conclude(1, `Rejected: ${line}`);

/** The bytes of a file that was read and isn't too long. */
function bytesOf(files, which) {
  if (files[which] === null) conclude(6, 'read fault');
  if (files[which].length > (which === 'certificate' ? 400_000_000 : 67_108_864)) conclude(3, `${which}: too long`);
  return files[which];
}

/** A station by its name, with its offsets. `station` is its reference, whose curve it follows. */
function findStation(name, { stations }, rows) {
  const own = stations.find(it => it.name === name);
  const row = own ? { name, high: UNMOVED, low: UNMOVED, slack: null } : rows.find(it => it.name === name) ?? refuse('no station');
  const station = own ?? stations.find(it => it.name === row.reference) ?? refuse(`no reference ${row.reference}`);
  if (station.unit === 'knots^2') refuse('hydraulic');
  return { ...row, station, unit: station.unit, isEqual: Object.keys(UNMOVED).every(key => row.high[key] === row.low[key]) };
}

/** The reference's minutes to which the cells belong, and its curve; tests in the program's order what has no answer. */
function curveFor({ begin, end }, { high, low, slack, station }, constants, isOneAdd) {
  const adds = isOneAdd ? [high.add] : [high.add, low.add, ...(slack ? [slack.flood, slack.ebb] : [])];
  const first = begin - Math.max(...adds), last = end - Math.min(...adds), curve = new Curve(constants, station), years = curve.minutes;
  if (first < years.first || last > years.last) refuse(`out of years: file has ${momentText(years.first)} to ${momentText(years.last)}`);
  const limit = curve.limit() ?? (end - begin > 5_270_400 ? `limit: span of ${end - begin} minutes` : null);
  if (limit !== null) conclude(5, limit);
  return { curve, first, whole: last - first };
}

/** The value of each track at a minute, and the rate of a cell, or null if it has none. */
function valuesOf(curve, { high, slack }, { mark = 0n, version }) {
  const levels = ({ times, plus }, sill) => ({
    valueAt: minute => BigInt(times) * curve.level(minute) + MILLION * T * UNIT * (BigInt(plus) - sill),
    rateOf: (first, last) => curve.levelRate(first, last, version, BigInt(times)),
  });
  const turn = { valueAt: minute => curve.slope(minute), rateOf: (first, last) => curve.turnRate(first, last, version) };
  return { turn, slack: levels(slack ? UNMOVED : high, 0n), mark: levels(high, mark) };
}

/** Whether two values, so many minutes apart, leave no room for an event between them. */
function isQuiet(value, next, minutes, rate) {
  if (rate === null || (value > 0n) !== (next > 0n)) return false;
  const sum = value + next, room = BigInt(minutes) * rate;
  return value > 0n ? sum > room : -sum >= room;
}

/** Calls a function for each cell, with its place, its minutes and the values at both ends. */
function forCells({ at, kinds, minutes }, bytes, first, valueAt, passed, test) {
  const lines = new Lines(bytes, at);
  for (let minute = first, value = valueAt(first); minute < first + minutes;) {
    const cell = lines.cell(kinds), after = minute + cell.minutes, next = valueAt(after);
    test(`cell ${lines.number - 1}`, { ...cell, minute, after, value, next });
    passed(cell.minutes);
    [minute, value] = [after, next];
  }
}

/** Checks the cells of a track, and returns its events. */
function checkTrack(name, track, first, { bytes, curve, values, passed }) {
  const events = [], { valueAt, rateOf } = values[name];
  forCells(track, bytes, first, valueAt, passed, (cell, { minutes, kind, level, minute, after, value, next }) => {
    const place = `track ${name}: ${cell}`, isAbove = next > 0n;
    if (minutes > 1) return isQuiet(value, next, minutes, rateOf(minute, after)) || reject(`${place} is not quiet`);
    if (kind !== (isAbove === value > 0n ? null : track.kinds[Number(isAbove)])) reject(`${place} has the wrong step`);
    const reading = kind === null ? level : Number(rounded(curve.level(minute), T * UNIT));
    if (kind !== null && level !== reading) reject(`${place} has level ${level}, computed ${reading}`);
    return kind === null || events.push({ minute, kind, level });
  });
  return events;
}

const moved = (level, { times, plus }) => Number(rounded(BigInt(level) * BigInt(times), MILLION)) + plus;

/** The label of an event by its level in millionths. */
function labelOf(kind, level, unit) {
  if (kind in LABELS || unit !== 'knots') return LABELS[kind] ?? (kind === 'high' ? 'High Tide' : 'Low Tide');
  return kind === 'high' ? (level > 0 ? 'Max Flood' : 'Min Ebb') : (level > 0 ? 'Min Flood' : 'Max Ebb');
}

/** An event of the reference as the station's. */
function listed({ minute, kind, level }, { high, low, slack, unit }) {
  const offsets = slack && kind in slack ? { ...UNMOVED, add: slack[kind] } : kind === 'low' ? low : high, own = moved(level, offsets);
  return { minute: minute + offsets.add, kind: KINDS.indexOf(kind), level: own, label: labelOf(kind, own, unit) };
}

function checkEvents(bytes, constants, rows, report) {
  const asked = readCertificate(bytes), { begin, end, mark, tracks } = asked, found = findStation(asked.station, constants, rows);
  if (begin > end) refuse('backward span');
  const { curve, first, whole } = curveFor(asked, found, constants, false);
  if (mark !== undefined && !found.isEqual) refuse('mark not here');
  const hasSlack = found.unit === 'knots' && (found.slack !== null || found.isEqual);
  if (hasSlack !== ('slack' in tracks)) reject(`slack track ${hasSlack ? 'wanted' : 'not wanted'}`);
  const shared = { bytes, curve, values: valuesOf(curve, found, asked), passed: report(whole * Object.keys(tracks).length) };
  const events = Object.entries(tracks).flatMap(([name, track]) => {
    if (track.minutes !== whole) reject(`track ${name}: cells cover ${track.minutes} of ${whole} minutes`);
    return checkTrack(name, track, first, shared);
  });
  return { ...asked, unit: found.unit, events: events.map(event => listed(event, found))
    .filter(({ minute }) => begin <= minute && minute < end).sort((one, other) => one.minute - other.minute || one.kind - other.kind) };
}

function checkPeak(bytes, constants, rows, report) {
  const asked = readPeak(bytes), { begin, end, at, cells, value: most } = asked, found = findStation(asked.station, constants, rows);
  if (begin >= end) refuse(begin > end ? 'backward span' : 'empty span');
  const { curve, first, whole } = curveFor(asked, found, constants, found.isEqual), { high, unit, isEqual } = found;
  if (!isEqual) refuse('level not here');
  if (cells.minutes !== whole) reject(`cells cover ${cells.minutes} of ${whole} minutes`);
  if (at < first || at >= first + whole) reject('at outside the span');
  forCells(cells, bytes, first, minute => MILLION * curve.level(minute), report(whole), (place, { minutes, minute, after, value, next }) => {
    if (minutes > 1) {
      const bound = value + next + curve.levelRate(minute, after, 2, MILLION) * BigInt(minutes);
      if (!(after <= at ? bound < 2n * most : minute > at && bound <= 2n * most)) reject(`${place} is not under`);
    } else if (minute === at && value !== most) reject(`value ${most}, computed ${value}`);
    else if (value > most || (value === most && minute < at)) reject(`${place} is above`);
  });
  const level = moved(Number(rounded(curve.level(at), T * UNIT)), high);
  return { ...asked, unit, events: [{ minute: at + high.add, level, label: null }] };
}

/** Millionths as a number with two decimals. */
export function levelText(level) {
  const size = Math.floor((Math.abs(level) + 5000) / 10_000), text = `${Math.floor(size / 100)}.${String(size % 100).padStart(2, '0')}`;
  return level < 0 && size > 0 ? `-${text}` : text;
}

/** The answer for an accepted certificate as the program prints it, by a clock (as `2025-06-01 07:50 UTC`). */
export function linesOf({ station, events, unit }, clockOf = minute => `${momentText(minute).slice(0, 16).replace('T', ' ')} UTC`) {
  return ['Accepted', station, ...events.map(({ minute, level, label }) =>
    `${label ? '' : 'Highest '}${clockOf(minute)}  ${levelText(level).padStart(9)} ${unit}${label ? `  ${label}` : ''}`)];
}

/**
 * What `tide check` or `tide peakcheck` answers: the status and the lines, and for an accepted certificate what it says.
 * A file is null if it couldn't be read, and `offsets` is undefined if there is no table. `report` takes the number of
 * minutes to check, and returns a function that takes how many more have been checked.
 */
export function check(files, report = () => () => {}) {
  try {
    const constants = readConstants(bytesOf(files, 'file')), rows = files.offsets === undefined ? [] : readOffsets(bytesOf(files, 'offsets'));
    const bytes = bytesOf(files, 'certificate'), accepted = (isPeak(bytes) ? checkPeak : checkEvents)(bytes, constants, rows, report);
    return { ...accepted, status: 0, lines: linesOf(accepted) };
  } catch (error) {
    if (!(error instanceof Verdict)) throw error;
    return { status: error.status, lines: [error.message] };
  }
}
