import { hasPlace, placeText } from './near.js';
import { element, thresholdText } from './sheets.js';
import { clockChanges } from './year_days.js';
import { browserZone, clockAt, clockName, dateText, differenceText, isZone } from './zones.js';

const DAYS = { weekday: 'long', day: 'numeric', month: 'long', year: 'numeric' };

/** The datum of a tide's levels, if the notes name it; a subordinate station's levels are above its reference's. */
function datumOf({ isCurrent, known }, reference) {
  return isCurrent ? '' : known?.notes.datum ?? reference?.notes.datum ?? '';
}

/** The directions towards which a current sets, as `flood 108°, ebb 288°`. */
export function directionsText(notes) {
  return [['flood', notes?.flood_direction], ['ebb', notes?.ebb_direction]].filter(([, degrees]) => Number.isFinite(degrees))
    .map(([word, degrees]) => `${word} ${String(degrees).padStart(3, '0')}°`).join(', ');
}

/** The clocks of the times that are shown, as `Times in EST (UTC-5)`, and whose clock that is, also for paper. */
export function timesText({ zone, offsets, begin, end, known }) {
  const starts = [{ moment: begin, clock: clockAt(begin, zone) }, ...clockChanges(begin, end, zone)].filter(({ clock }) => offsets.includes(clock.offset));
  const names = starts.map(({ moment, clock: { date, time } }, index) =>
    `${index === 0 ? '' : `from ${dateText(date)} ${time} in `}${clockName(zone, moment)}`);
  const whose = zone === known?.notes.zone ? 'local time at the station' : `the clock of ${zone}`;
  return `Times in ${names.join(', ')}, ${whose}`;
}

export function whenText({ view, date }) {
  if (view === 'year') return `Year ${date.slice(0, 4)}`;
  return view === 'month' ? dateText(date, { month: 'long', year: 'numeric' }) : `Week from ${dateText(date, DAYS)}`;
}

/** What a sheet is about; `reference` is the station of a subordinate station's reference. */
export function aboutLine(answer, reference) {
  const { units, ownUnits, isConverted, known, sill, isCurrent } = answer;
  const datum = datumOf(answer, reference);
  const parts = [`${isCurrent ? 'Current' : 'Tide'} in ${units}${isConverted ? ` (converted from ${ownUnits})` : ''}${datum && ` above ${datum}`}`];
  if (isCurrent) parts.push(directionsText(known?.notes));
  parts.push(timesText(answer));
  if (known?.reference) parts.push(`by differences from ${known.reference}`);
  if (sill !== null) parts.push(thresholdText(answer));
  return [element('strong', {}, whenText(answer)), `. ${parts.filter(Boolean).join(' · ')}`];
}

/** How the browser's clock differs from the station's, or the station's from one that was chosen. */
export function clocksText({ zone, known, begin, end }) {
  const own = known?.notes.zone;
  if (!isZone(own)) return null;
  const [whose, other] = zone === own ? ["This browser's clock", browserZone()] : ["The station's own clock", own];
  const difference = differenceText(other, zone, [begin, end - 60_000]);
  return difference === '' ? null : { text: `${whose}, of ${other}, is ${difference}. `, zone: other === own ? null : other };
}

export function stationText({ notes }) {
  const { country, identifier, source } = notes;
  return [hasPlace(notes) ? placeText(notes) : '', country, identifier, source && `constants from ${source}`].filter(Boolean).join(' · ');
}

/** Why a station has turns only, in one sentence, and what that means for a sill or a limit that was asked for. */
export function turnsOnlyText({ isTurnsOnly, isCurrent, known, wantedSill }) {
  if (!isTurnsOnly) return '';
  const [what, between, missing] = isCurrent ? ['slack waters and greatest speeds', 'the speed', 'times within a limit']
    : ['high and low waters', 'the level', 'times above a sill'];
  const source = known?.reference ? `They follow from ${known.reference}` : 'They follow from another station';
  return `This station has ${what} only. ${source}, and nothing is known about ${between} in between.${wantedSill === null ? '' : ` So there are no ${missing} here.`}`;
}
