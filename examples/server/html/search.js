/** Finds stations by words, and by words that are mistyped. Accents, capitals and punctuation don't count. */
const SHORT = { saint: 'st', fort: 'ft', point: 'pt', mount: 'mt', island: 'i', harbor: 'hbr', harbour: 'harbor' };
const LONG = Object.fromEntries(Object.entries(SHORT).map(([long, short]) => [short, long]));

const unaccented = text => (/[^\0-\x7f]/.test(text) ? text.normalize('NFD').replace(/\p{M}/gu, '') : text);
const folded = text => unaccented(text).toLowerCase().replace(/[’']/g, '');
const wordsOf = text => folded(text).split(/[^\p{L}\p{N}]+/u).filter(Boolean);

/** What a search knows of each station: the words of the parts of its name, and of its country and identifier. */
const entries = new WeakMap();
function entryOf(station) {
  if (!entries.has(station)) {
    const { name, notes } = station;
    const parts = name.split(', ').map(part => part.replace(/ Current$/, ''));
    const noted = wordsOf(`${notes?.country ?? ''} ${notes?.identifier ?? ''}`);
    const words = parts.map(wordsOf);
    const plain = parts[0].replace(/\([^)]*\)/g, '');
    entries.set(station, {
      first: [plain, parts[0], plain.replace(/^The /, '')].map(text => wordsOf(text).join(' ')), parts: words, words: [...wordsOf(name), ...noted], noted,
      joined: [...wordsOf(name), ...noted].join(' '),
    });
  }
  return entries.get(station);
}

/**
 * How well a station that has all the words fits them; 0 is best. The first part of the name counts most: as a whole, then
 * with what follows it, then as far as it begins with the words or has them; then the parts after it, and the region last.
 */
function rankOf({ first, parts, words, noted }, wanted) {
  const typed = wanted.join(' ');
  if (first.includes(typed) || wanted.some(word => /\d/.test(word) && noted.includes(word))) return 0;
  if (first.some(text => text && `${typed} `.startsWith(`${text} `))) return 1;
  if (first.some(text => text.startsWith(`${typed} `))) return 2;
  if (first.some(text => text.startsWith(typed))) return 3;
  if (first.some(text => text.includes(` ${typed}`))) return 4;
  if (parts.slice(1, -1).some(part => part.join(' ').startsWith(typed))) return 5;
  const has = list => wanted.every(word => list.some(other => other.startsWith(word)));
  if (first.some(text => text.startsWith(wanted[0])) && has(words)) return 6;
  if (has(parts[0])) return 7;
  return has(parts.slice(0, -1).flat()) ? 8 : 9;
}

/** The order of stations of one rank: tides before currents, what isn't predicted last, references before the others. */
const orderOf = ({ isCurrent, isHydraulic, reference }) => 4 * Boolean(isHydraulic) + 2 * Boolean(isCurrent) + (reference !== null && reference !== undefined);

/** Among stations of one rank and order the shorter first part, or the part that is more to the left, is first. */
function distanceOf({ first, parts }, rank, wanted) {
  if (rank <= 3) return first[0].length;
  return rank === 5 ? parts.findIndex(part => part.join(' ').startsWith(wanted.join(' '))) : 0;
}

/** A part of a name for a word as it is typed, or for others that it may mean, which have to be whole words. */
const asTyped = word => ({ typed: word, others: [SHORT[word], LONG[word]].filter(Boolean) });

function ranked(stations, choices) {
  const found = [];
  for (const station of stations) {
    const entry = entryOf(station);
    const wanted = choices.map(({ typed, others }) => (typed && entry.joined.includes(typed) ? typed : others.find(word => entry.words.includes(word))));
    if (wanted.some(word => word === undefined)) continue;
    const rank = rankOf(entry, wanted);
    found.push({ station, rank, order: orderOf(station), distance: distanceOf(entry, rank, wanted) });
  }
  return found.sort((one, other) => one.rank - other.rank || one.order - other.order || one.distance - other.distance)
    .map(({ station }) => station);
}

/** The number of letters to add, drop, change or swap with their neighbour between two words; more than `most` is `most + 1`. */
export function editsBetween(one, other, most) {
  if (Math.abs(one.distance - other.distance) > most) return most + 1;
  let before = [], last = Array.from({ length: other.length + 1 }, (_, index) => index);
  for (let row = 1; row <= one.length; row++) {
    const next = [row];
    for (let column = 1; column <= other.length; column++) {
      const isSame = one[row - 1] === other[column - 1];
      let edits = Math.min(last[column] + 1, next[column - 1] + 1, last[column - 1] + !isSame);
      if (row > 1 && column > 1 && one[row - 1] === other[column - 2] && one[row - 2] === other[column - 1]) edits = Math.min(edits, before[column - 2] + 1);
      next.push(edits);
    }
    [before, last] = [last, next];
  }
  return Math.min(last.at(-1), most + 1);
}

/** The words of names that are nearest to a mistyped one: by one edit, or by two if it is long. */
function nearWords(word, vocabulary) {
  const most = word.length < 4 ? 0 : word.length < 7 ? 1 : 2;
  const near = vocabulary.filter(other => !/\d/.test(other)).map(other => [editsBetween(word, other, most), other]).filter(([edits]) => edits <= most);
  const least = Math.min(...near.map(([edits]) => edits));
  return near.filter(([edits]) => edits === least).map(([, other]) => other);
}

/** The words that a mistyped one may stand for: two words without the space between them, or words that are near. */
function meantBy(word, vocabulary) {
  const known = new Set(vocabulary);
  const cuts = Array.from({ length: Math.max(0, word.length - 3) }, (_, index) => [word.slice(0, index + 2), word.slice(index + 2)]);
  const halves = cuts.find(pair => pair.every(half => known.has(half)));
  return halves ? halves.map(asTyped) : [{ typed: '', others: nearWords(word, vocabulary) }];
}

/** The stations that have each of the words, best first. If there is none, `isNear` is true, and a word that occurs nowhere counts as the words near it. */
export function searchStations(stations, text) {
  const wanted = wordsOf(text);
  if (wanted.length === 0) return { found: stations, isNear: false };
  const found = ranked(stations, wanted.map(asTyped));
  if (found.length > 0) return { found, isNear: false };
  const vocabulary = [...new Set(stations.flatMap(station => entryOf(station).words))];
  const isKnown = word => vocabulary.some(other => other.includes(word));
  const meant = wanted.flatMap(word => (isKnown(word) ? [asTyped(word)] : meantBy(word, vocabulary)));
  return { found: ranked(stations, meant), isNear: true };
}

export const findStations = (stations, text) => searchStations(stations, text).found;
