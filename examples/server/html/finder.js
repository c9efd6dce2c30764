import { distanceText, hasPlace, nearestTo, placeOf, placeText } from './near.js';
import { addressOf } from './question.js';
import { forgetSeen, seenStations } from './recent.js';
import { searchStations } from './search.js';
import { element } from './sheets.js';
import { regionsOf, twinOf } from './stations.js';

/** The most stations of a search, of the stations near a place or a station, and of a start page without regions. */
const MOST_FOUND = 100, MOST_NEAR = 10, MOST_WITHOUT_REGIONS = 60;
const place = id => document.getElementById(id);
let stations = [];

/** A line of a list of stations: a link with the station's kind and name, and a quiet text. */
function stationLine({ name, isCurrent }, quiet) {
  const kind = isCurrent ? 'current' : 'tide';
  const href = addressOf(location.search, { station: name, sill: null, zone: null, year: null });
  return element('li', {}, element('a', { href }, element('span', { className: `kind ${kind}` }, kind),
    element('span', {}, name, ' ', element('span', { className: 'quiet' }, quiet))));
}

function foundText(station) {
  const { units, reference, isHydraulic, notes: { country, identifier } } = station;
  if (isHydraulic) return 'hydraulic: not predicted';
  if (station.twin) return `the same place once more, by differences from ${reference}`;
  return [country, identifier].filter(Boolean).join(' · ') || (reference === null ? units : `by differences from ${reference}`);
}

const foundLine = station => stationLine(station, foundText(station));
const nearLine = ({ station, distance, bearing }) => stationLine(station, distanceText(distance, bearing));

function countText(found, words, isNear) {
  if (stations.length === 0) return 'The list of stations is empty.';
  const first = found.length > MOST_FOUND ? `, the best ${MOST_FOUND}` : '';
  const count = `${found.length} of ${stations.length} stations${first}`;
  if (!isNear) return count;
  return found.length > 0 ? `No station has “${words}”. Near it: ${count}` : `No station has “${words}”, or a name near it.`;
}

/** The stations near a station or a place; of two entries of a place the one with constants of its own. */
const nearTo = (where, count) => nearestTo(where, stations.filter(({ twin }) => !twin), count);

/** The stations near a place: the list and what it is. */
function nearPlace(where) {
  const near = nearTo({ notes: where }, 2 * MOST_NEAR);
  return [near.map(nearLine), near.length > 0 ? `The nearest stations to ${placeText(where)}` : 'The stations have no coordinates here.'];
}

function foundBy(words) {
  const { found, isNear } = searchStations(stations, words);
  return [found.slice(0, MOST_FOUND).map(foundLine), countText(found, words, isNear)];
}

/** Shows what the search field finds, or without words and a station the start page. */
export function showFound(hasStation) {
  const words = place('words').value.trim(), where = placeOf(words);
  const isStart = words === '' && !hasStation, hasRegions = stations.length > MOST_WITHOUT_REGIONS;
  const [lines, count] = where ? nearPlace(where) : words || (isStart && !hasRegions) ? foundBy(words) : [[], ''];
  place('found').replaceChildren(...lines);
  place('found').className = hasStation ? 'short' : '';
  place('count').textContent = isStart && hasRegions ? `${stations.length} stations` : count;
  showStart(isStart, hasRegions);
}

/** Lists the stations near a name that no station has. */
export function suggest(name) {
  if (place('words').value !== '') return;
  place('words').value = name;
  showFound(true);
}

/** A region that lists its stations once it is opened, tides first. */
function regionPart([region, members]) {
  const [tides, currents] = [members.filter(({ isCurrent }) => !isCurrent), members.filter(({ isCurrent }) => isCurrent)];
  const count = [[tides, 'tide'], [currents, 'current']].filter(([list]) => list.length > 0)
    .map(([list, word]) => `${list.length} ${word}${list.length === 1 ? '' : 's'}`).join(', ');
  const list = element('ul', { className: 'stations' });
  const part = element('details', {}, element('summary', {}, `${region || 'Elsewhere'} `, element('span', { className: 'quiet' }, count)), list);
  part.addEventListener('toggle', () => {
    if (part.open && !list.hasChildNodes()) list.append(...[...tides, ...currents].map(foundLine));
  });
  return part;
}

function showStart(isStart, hasRegions) {
  const seen = seenStations().map(name => stations.find(station => station.name === name)).filter(Boolean);
  place('start').hidden = !isStart || stations.length === 0;
  place('seen').hidden = seen.length === 0;
  place('seen').querySelector('ul').replaceChildren(...seen.map(foundLine));
  place('regions').hidden = !hasRegions;
  if (isStart && hasRegions && !place('regions').querySelector('details')) {
    place('regions').querySelector('div').append(...regionsOf(stations.filter(({ twin }) => !twin)).map(regionPart));
  }
}

/** Lists the stations nearest to a station, and links a station that occurs twice with its twin. */
export function showNear(station) {
  const near = nearTo(station, MOST_NEAR).filter(({ station: { name } }) => name !== station.twin);
  place('near').hidden = near.length === 0;
  place('near').querySelector('ol').replaceChildren(...near.map(nearLine));
  const twin = station && twinOf(station, stations);
  place('twin').replaceChildren(...(twin ? [
    `This entry has ${station.name.replace(/ \(sub\)$/, '')} by differences from ${station.reference}. `,
    element('a', { href: addressOf(location.search, { station: twin.name }) }, 'The entry with constants of its own'), ' is the better one.'] : []));
}

const REASONS = {
  1: 'The browser does not give its place to this page. It needs your permission and, but on this machine itself, an address with https.',
  2: 'The browser does not know its place.', 3: 'The browser did not find its place in time.',
};

/** Asks the browser for its place, and lists the stations near it. */
function findHere(hasStation) {
  place('count').textContent = 'Asking the browser for its place ..';
  const fail = ({ code }) => { place('count').textContent = REASONS[code] ?? REASONS[2]; };
  if (!navigator.geolocation) return fail({ code: 2 });
  return navigator.geolocation.getCurrentPosition(({ coords: { latitude, longitude } }) => {
    place('words').value = `${latitude.toFixed(4)} ${longitude.toFixed(4)}`;
    showFound(hasStation());
  }, fail, { timeout: 20_000, maximumAge: 60_000 });
}

function moveAmongFound(press) {
  const step = { ArrowDown: 1, ArrowUp: -1 }[press.key];
  if (!step) return;
  const stops = [place('words'), ...place('finder').querySelectorAll('#found a, #seen a')];
  stops[stops.indexOf(document.activeElement) + step]?.focus();
  press.preventDefault();
}

/** Takes the list of stations, once it is there. */
export function takeStations(list) {
  stations = list;
  place('regions').querySelector('div').replaceChildren();
  const isNoted = list.some(({ notes }) => hasPlace(notes));
  place('here').hidden = !isNoted;
  if (isNoted) place('hint').textContent = 'By any part of its name, its country or identifier, or by a place such as 42.35 -71.05';
}

/** Listens to the search field; `hasStation` tells whether a station is shown. */
export function listenToFinder(hasStation) {
  const show = () => showFound(hasStation());
  place('finder').addEventListener('input', show);
  place('finder').addEventListener('keydown', moveAmongFound);
  place('finder').addEventListener('submit', event => {
    event.preventDefault();
    place('found').querySelector('a')?.click();
  });
  place('here').addEventListener('click', () => findHere(hasStation));
  place('forget').addEventListener('click', () => {
    forgetSeen();
    show();
    place('words').focus();
  });
}
