const MINUTE = 60_000;
const DAY = 1440 * MINUTE;
const formats = new Map();

function formatOf(zone) {
  if (!formats.has(zone)) {
    formats.set(zone, new Intl.DateTimeFormat('en-US', {
      timeZone: zone, calendar: 'gregory', numberingSystem: 'latn', hourCycle: 'h23',
      year: 'numeric', month: '2-digit', day: '2-digit', hour: '2-digit', minute: '2-digit',
    }));
  }
  return formats.get(zone);
}

export const browserZone = () => Intl.DateTimeFormat().resolvedOptions().timeZone;

export const zoneNames = () =>
  [...new Set([...Intl.supportedValuesOf('timeZone'), browserZone(), 'UTC'])].sort();

export function isZone(name) {
  try {
    return Boolean(name && formatOf(name));
  } catch {
    return false;
  }
}

function offsetText(minutes) {
  const size = Math.abs(minutes), two = number => String(number).padStart(2, '0');
  return `${minutes < 0 ? '-' : '+'}${two(Math.floor(size / 60))}:${two(size % 60)}`;
}

/** The date and the time of a zone's clock at a moment, and how far it is ahead of UTC. */
export function clockAt(moment, zone) {
  const parts = Object.fromEntries(formatOf(zone).formatToParts(moment).map(part => [part.type, part.value]));
  const date = `${parts.year.padStart(4, '0')}-${parts.month}-${parts.day}`;
  const time = `${parts.hour}:${parts.minute}`;
  const ahead = Date.parse(`${date}T${time}Z`) - Math.floor(moment / MINUTE) * MINUTE;
  return { date, time, ahead, offset: offsetText(ahead / MINUTE) };
}

/** The first moment of a date by a zone's clock; if that day has no midnight, the moment that midnight would have been. */
export function startOfDay(date, zone) {
  const midnight = Date.parse(`${date}T00:00Z`);
  const around = [midnight - DAY, midnight + DAY].map(moment => midnight - clockAt(moment, zone).ahead);
  const starts = around.filter(moment => {
    const clock = clockAt(moment, zone);
    return clock.date === date && clock.time === '00:00';
  });
  return starts.length > 0 ? Math.min(...starts) : around[0];
}

/** Whether a text is a date of the calendar with a whole month around it that the program's moments can name. */
export const isDate = text => /^\d{4}-\d\d-\d\d$/.test(text ?? '') && dateOf(Date.parse(`${text}T00:00Z`)) === text
  && text >= '0002' && text < '9999';

const dateOf = moment => (Number.isNaN(moment) ? '' : new Date(moment).toISOString().slice(0, 10));

export const daysLater = (date, days) => dateOf(Date.parse(`${date}T00:00Z`) + days * DAY);

export function monthsLater(date, months) {
  const first = new Date(`${date.slice(0, 7)}-01T00:00Z`);
  first.setUTCMonth(first.getUTCMonth() + months);
  return dateOf(first.getTime());
}

export function dateText(date, parts = { weekday: 'short', day: 'numeric', month: 'short' }) {
  return new Intl.DateTimeFormat('en-GB', { timeZone: 'UTC', ...parts }).format(Date.parse(`${date}T00:00Z`));
}

/** A moment in the form of the program's `begin` and `end`. */
export const momentText = moment => `${new Date(moment).toISOString().slice(0, 16)}Z`;

/** How far one zone's clock is ahead of another's at some moments: as `6 h ahead`, `3 h 30 min behind`, or '' if never. */
export function differenceText(zone, other, moments) {
  const minutes = [...new Set(moments.map(moment => (clockAt(moment, zone).ahead - clockAt(moment, other).ahead) / MINUTE))];
  const text = difference => {
    const size = Math.abs(difference), [hours, rest] = [Math.floor(size / 60), size % 60];
    const parts = [hours > 0 ? `${hours} h` : '', rest > 0 ? `${rest} min` : ''].filter(Boolean);
    return difference === 0 ? 'level' : `${parts.join(' ')} ${difference > 0 ? 'ahead' : 'behind'}`;
  };
  return minutes.every(difference => difference === 0) ? '' : minutes.map(text).join(' or ');
}

/** English-speaking countries, of which each names the clocks of its own part of the world. */
const LOCALES = ['en-US', 'en-GB', 'en-AU', 'en-NZ', 'en-IN', 'en-ZA'];

/** The short name of a zone's clock at a moment, as `EST`, or '' if English has none. */
export function shortName(zone, moment) {
  const names = LOCALES.map(locale => new Intl.DateTimeFormat(locale, { timeZone: zone, timeZoneName: 'short' })
    .formatToParts(moment).find(({ type }) => type === 'timeZoneName').value);
  return names.find(name => !/^(GMT|UTC)./.test(name)) ?? '';
}

/** How far a clock is ahead of UTC, as `UTC-5` or `UTC+5:45`. */
export function utcText(ahead) {
  const minutes = Math.abs(ahead) / MINUTE, rest = minutes % 60;
  return minutes === 0 ? 'UTC' : `UTC${ahead < 0 ? '-' : '+'}${Math.floor(minutes / 60)}${rest > 0 ? `:${String(rest).padStart(2, '0')}` : ''}`;
}

/** A zone's clock at a moment, as `EST (UTC-5)`. */
export function clockName(zone, moment) {
  const name = shortName(zone, moment), utc = utcText(clockAt(moment, zone).ahead);
  return name === '' || name === utc ? utc : `${name} (${utc})`;
}
