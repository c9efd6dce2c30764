/** What ends a check before its listing: a status of `tide check` and the line that goes with it. */
export class Verdict extends Error {
  constructor(status, line) {
    super(line);
    this.status = status;
  }
}

export function conclude(status, line) {
  throw new Verdict(status, line);
}

/** Tests a rule of a file's form. The text names the rule; the reader of the file puts the place before it. */
export const demand = (holds, text) => holds || conclude(3, text);

/** What a reader returns; the faults of its file begin with the place where it was. */
export function readWith(read, place) {
  try {
    return read();
  } catch (error) {
    throw error instanceof Verdict ? new Verdict(3, `${place()}: ${error.message}`) : error;
  }
}

/** Bytes as ISO 8859-1. */
export function latinText(bytes) {
  const parts = [];
  for (let at = 0; at < bytes.length; at += 8192) parts.push(String.fromCharCode.apply(null, bytes.subarray(at, at + 8192)));
  return parts.join('');
}

/** The text of UTF-8, or null for bytes that aren't UTF-8. */
export function utf8Text(bytes) {
  try {
    return new TextDecoder('utf-8', { fatal: true, ignoreBOM: true }).decode(bytes);
  } catch {
    return null;
  }
}

/** Whether a text of so many bytes is a name: 1 to `most` bytes, none below 32 and none 127. */
export const isName = (text, size, most) => size >= 1 && size <= most && !/[\0-\x1f\x7f]/.test(text);

/** A decimal in units of its last place. With at most 8 digits before the point it is below 10^15, and so exact. */
export function readDecimal(text, places, least, most) {
  const [, sign, whole = '', behind, bare] = /^([+-]?)(?:(\d+)(?:\.(\d*))?|\.(\d+))$/.exec(text) ?? [];
  demand(sign !== undefined && whole.length <= 18, 'bad number (3)');
  const digits = behind ?? bare ?? '', size = whole.replace(/^0+/, '');
  demand(!/[1-9]/.test(digits.slice(places)), 'too fine (4)');
  const value = Number(sign + size + digits.slice(0, places).padEnd(places, '0'));
  demand(size.length <= 8 && value >= least && value <= most, 'out of range (5)');
  return value;
}

/** A time as `-1:05` in minutes, or null for another text. */
export function readTime(text) {
  const [, sign, hours, minutes] = /^([+-]?)(\d\d?):([0-5]\d)$/.exec(text) ?? [];
  return hours === undefined ? null : Number(`${sign}1`) * (60 * Number(hours) + Number(minutes));
}

export const momentText = minute => `${new Date(minute * 60_000).toISOString().slice(0, 16)}Z`;

/** The minute of a moment, or null for another text. */
export function readMoment(text) {
  const minute = /^\d{4}-\d\d-\d\dT\d\d:\d\dZ$/.test(text) && text >= '0001' ? Date.parse(text) / 60_000 : NaN;
  return !Number.isNaN(minute) && momentText(minute) === text ? minute : null;
}

/** A quotient of whole numbers, rounded, a half away from zero. */
export const rounded = (value, by) => (value < 0n ? -rounded(-value, by) : (2n * value + by) / (2n * by));
