import { HOURS, UNITS } from './units.js';
import { browserZone, clockAt, isDate, isZone } from './zones.js';

const VIEWS = ['week', 'month'];
export const PAPERS = ['A4', 'Letter'];

/** A number as the program reads it, or null for none. */
export const decimalText = text => text?.trim().replace(',', '.') || null;

export const isYear = text => /^\d{4}$/.test(text ?? '') && text >= '0002' && text <= '9998';

/** The keys of an address: whether a value is valid, and what is wrong with it if it isn't. */
const KEYS = {
  date: [isDate, 'The date, “$”, is not a day of the calendar. Write it as 2026-12-31, in a year from 0002 to 9998.'],
  year: [isYear, 'The year, “$”, is not a year from 0002 to 9998.'],
  view: [value => VIEWS.includes(value), 'The view, “$”, is neither “week” nor “month”.'],
  zone: [isZone, 'The time zone, “$”, is not known to this browser. Write it as America/New_York.'],
  units: [value => UNITS.includes(value), 'The units, “$”, are neither “feet” nor “metres”.'],
  hours: [value => HOURS.includes(value), 'The hours, “$”, are neither “12” nor “24”.'],
  paper: [value => PAPERS.includes(value), 'The paper, “$”, is neither “A4” nor “Letter”.'],
};

/** What is wrong with the values of an address: each key with a sentence. A key that is left out or empty is right. */
export function faultsOf(search) {
  const query = new URLSearchParams(search);
  return Object.entries(KEYS).filter(([key, [isValid]]) => query.get(key)?.trim() && !isValid(query.get(key)))
    .map(([key, [, text]]) => ({ key, text: text.replace('$', () => query.get(key)) }));
}

/** The question of an address. A value that is left out or wrong is the usual one; `usualZone` is the station's. */
export function questionOf(search, usualZone) {
  const query = new URLSearchParams(search);
  const valid = key => (query.get(key) && KEYS[key][0](query.get(key)) ? query.get(key) : null);
  const zone = valid('zone') ?? (isZone(usualZone) ? usualZone : browserZone());
  return {
    station: query.get('station'), zone, date: valid('date') ?? clockAt(Date.now(), zone).date, view: valid('view') ?? 'week',
    sill: decimalText(query.get('sill')), units: valid('units'), hours: valid('hours') ?? '24',
  };
}

/** The address with some values changed; those that are null or empty are left out. */
export function addressOf(search, changes) {
  const query = new URLSearchParams(search);
  for (const [key, value] of Object.entries(changes)) {
    if (value) query.set(key, value); else query.delete(key);
  }
  return `?${query}`;
}
