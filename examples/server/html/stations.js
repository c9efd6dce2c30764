const LINE = /^(Ref|Sub) (\S+) (.*)$/;

function withReference(text, references) {
  const cuts = [...text.matchAll(/ \(/g)].map(({ index }) => index);
  const cut = cuts.find(place => references.has(text.slice(place + 2, -1))) ?? cuts.at(-1) ?? text.length;
  return { name: text.slice(0, cut), reference: text.slice(cut + 2, -1) };
}

/** The stations of the program's list. A name may have ` (` itself, so a reference is found by the names of `Ref` lines. */
export function readStations(text) {
  const lines = text.split('\n').map(line => LINE.exec(line)).filter(Boolean);
  const references = new Set(lines.filter(([, kind]) => kind === 'Ref').map(line => line[3]));
  const stations = lines.map(([, kind, units, rest]) => ({
    units,
    isCurrent: units.startsWith('knots'),
    isHydraulic: units === 'knots^2',
    ...(kind === 'Ref' ? { name: rest, reference: null } : withReference(rest, references)),
  }));
  const names = new Set(stations.map(({ name }) => name));
  return stations.map(station => ({ ...station, twin: twinName(station.name, names) }));
}

/** The stations with their notes, by name, with names that begin with a digit last. Without notes a station has an empty object. */
export function withNotes(stations, notes) {
  const { compare: compareTexts } = new Intl.Collator('en', { numeric: true });
  const compare = (one, other) => /^\d/.test(one) - /^\d/.test(other) || compareTexts(one, other);
  return stations.map(station => ({ ...station, notes: (Object.hasOwn(notes, station.name) && notes[station.name]) || {} }))
    .sort((one, other) => compare(one.name, other.name));
}

/** The name without ` (sub)` if another station has that name, or null: the same place with constants of its own. */
function twinName(name, names) {
  const plain = name.replace(/ \(sub\)$/, '');
  return plain !== name && names.has(plain) ? plain : null;
}

/** The station that is the same place with constants of its own, or null. */
export const twinOf = ({ twin }, stations) => (twin ? stations.find(({ name }) => name === twin) ?? null : null);

/** The region of a name: its last part, as `Maine`, without parentheses and what follows `Current`. A name of one part has none. */
export function regionOf(name) {
  const last = name.split(', ').slice(1).at(-1) ?? '';
  return last.replace(/ \([^)]*\)/g, '').replace(/ Current\b.*$/, '').trim();
}

/** The regions by name, each with its stations. Stations without a region are the last, under ''. */
export function regionsOf(stations) {
  const regions = new Map();
  for (const station of stations) {
    const region = regionOf(station.name);
    regions.set(region, [...(regions.get(region) ?? []), station]);
  }
  return [...regions].sort(([one], [other]) => (one === '') - (other === '') || one.localeCompare(other, 'en'));
}
