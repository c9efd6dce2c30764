import { conclude, isName, latinText, readMoment, utf8Text } from './check_text.js';

/** The kinds of event of each track: the one when its value stops being above 0, and the one when it rises above 0. */
export const TRACKS = { turn: ['high', 'low'], slack: ['ebb', 'flood'], mark: ['fall', 'rise'] };
const CELL = /^(?:([smqu])(?: ([1-9]\d{0,3}))?|t ([a-z]+) (0|-?[1-9]\d{0,13}))$/;

/** The lines of a certificate from a place in its bytes. Each has to be one that a certificate can have there. */
export class Lines {
  constructor(bytes, at = 0) {
    Object.assign(this, { bytes, at, number: 1 });
  }

  fail() {
    conclude(3, `certificate: line ${this.number}`);
  }

  /** The bytes of the next line; none if it has no end, or is longer than a line with a name. */
  peek(most = 408) {
    const end = this.bytes.subarray(this.at, this.at + most + 1).indexOf(10);
    return this.bytes.subarray(this.at, this.at + Math.max(end, 0));
  }

  is(text) {
    return latinText(this.peek()) === text;
  }

  pass(size) {
    this.at += size + 1;
    this.number += 1;
  }

  expect(text) {
    if (!this.is(text)) this.fail();
    this.pass(text.length);
  }

  /** What a function reads behind a word of the next line; null is a fault. */
  field(word, read) {
    const line = this.peek(), text = latinText(line), value = text.startsWith(`${word} `)
      ? read(text.slice(word.length + 1), line.subarray(word.length + 1)) : null;
    if (value === null) this.fail();
    this.pass(text.length);
    return value;
  }

  /** The next line as a cell of a track with these kinds (of a peak without kinds), or null if it isn't one. */
  cell(kinds) {
    const line = this.peek(24), [all, form, digits, kind, level] = CELL.exec(latinText(line)) ?? [], minutes = Number(digits ?? 1);
    const long = kinds ? 'q' : 'u', single = kinds ? 's' : 'm';
    const holds = form === undefined ? Boolean(kinds?.includes(kind))
      : digits === undefined ? form === single : form === long && minutes >= 2 && minutes <= 1024;
    if (all === undefined || !holds) return null;
    this.pass(line.length);
    return { minutes, kind: kind ?? null, level: Number(level) };
  }

  /** Passes the cells that follow, and returns where they begin and how many minutes they have. */
  cells(kinds) {
    const track = { at: this.at, kinds, minutes: 0 };
    for (let cell = this.cell(kinds); cell !== null; cell = this.cell(kinds)) track.minutes += cell.minutes;
    return track;
  }

  finish() {
    this.expect('done');
    if (this.at < this.bytes.length) this.fail();
  }
}

/** A whole number of at most this size, or null for another text. */
function readNumber(text, most) {
  const number = /^(0|-?[1-9]\d{0,36})$/.test(text) ? BigInt(text) : null;
  return number !== null && number <= most && -number <= most ? number : null;
}

function readHead(lines) {
  const station = lines.field('station', (text, bytes) => (isName(text, bytes.length, 400) ? utf8Text(bytes) : null));
  return { station, begin: lines.field('begin', readMoment), end: lines.field('end', readMoment) };
}

/** Whether bytes begin as the certificate of a highest water, which `tide peakcheck` checks and `tide check` refuses. */
export const isPeak = bytes => new Lines(bytes).is('peak certificate 1');

export function readPeak(bytes) {
  const lines = new Lines(bytes);
  lines.expect('peak certificate 1');
  const head = readHead(lines), at = lines.field('at', readMoment), value = lines.field('value', text => readNumber(text, 10n ** 37n));
  const cells = lines.cells(null);
  lines.finish();
  return { ...head, at, value, cells };
}

/** Reads a certificate of events: its tracks by their names; `mark` is undefined if there is none. */
export function readCertificate(bytes) {
  const lines = new Lines(bytes), version = lines.field('tide certificate', text => (/^[12]$/.test(text) ? Number(text) : null));
  const head = readHead(lines), tracks = {};
  const mark = lines.field('mark', text => (text === 'none' ? undefined : readNumber(text, 10n ** 10n)));
  for (const [name, kinds] of Object.entries(TRACKS)) {
    if (name === 'slack' && !lines.is('track slack')) continue;
    if (name === 'mark' && mark === undefined) continue;
    lines.expect(`track ${name}`);
    tracks[name] = lines.cells(kinds);
  }
  lines.finish();
  return { ...head, version, mark, tracks };
}
