/** The lines of refusals and the page's texts for them. In a text $1 is a part of the line, and {key} the value of a key of the question. */
const TEXTS = [
  [/^refused: no station$/, 'There is no station “{station}” here.'],
  [/^refused: no reference (.*)$/, '“{station}” is computed by differences from “$1”, which the file of constants lacks.'],
  [/^refused: hydraulic$/, '“{station}” is a hydraulic current, whose speed comes from a difference of water levels. Such currents are not predicted.'],
  [/^refused: out of years: file has (.*) to (.*)$/, 'The constants reach from $1 to $2. Choose a date between them.'],
  [/^refused: mark not here$/, '“{station}” has no times above a level: only its turns are computed, not the curve between them.'],
  [/^refused: level not here$/, '“{station}” has no curve: only its turns are computed, since its highs and lows have different offsets.'],
  [/^refused: backward span$/, 'The question ends ({end}) before it begins ({begin}).'],
  [/^limit: (.*)$/, 'The question exceeds a limit: $1.'],
];
const KEYS = { mark: 'sill or limit', station: 'station', begin: 'begin', end: 'end', step: 'step' };

export class NoAnswer extends Error {
  constructor(kind, words, line = '') {
    super(words);
    Object.assign(this, { kind, line, isNoStation: line === 'refused: no station' });
  }
}

/** The text for a pair of the question with a bad value. The pairs are numbered from 1. */
function pairText(number, question) {
  const [key, value] = Object.entries(question)[number - 1] ?? ['', ''];
  const form = key === 'mark' ? ' a number from -10000 to 10000, such as 4 or -1.25, with at most six decimals' : ' of its form';
  return key ? `The ${KEYS[key] ?? `value of ${key}`}, “${value}”, is not${form}.` : 'The question is not valid.';
}

function refusal(line, question) {
  const pair = /^words: pair (\d+) /.exec(line);
  const [form, text] = TEXTS.find(([form]) => form.test(line)) ?? [/.*/, 'The server has no answer to this question.'];
  const whole = pair ? pairText(Number(pair[1]), question)
    : text.replace(/\$(\d)|\{(\w+)\}/g, (all, group, key) => (group ? form.exec(line)[group] : question[key] ?? ''));
  return new NoAnswer('refused', whole, line);
}

/** The text of an answer; throws the reason if there is none. A reply that isn't plain text comes from a server in between. */
export function answerOf(status, type, body, question = {}) {
  const isOurs = /^text\/(plain|csv)\b/.test(type ?? '');
  if (status === 200 && isOurs) return body;
  if ([429, 503, 504].includes(status)) throw new NoAnswer('busy', 'The server is busy. Try again in a moment.');
  if (status >= 400 && status < 500 && isOurs) throw refusal(body.trimEnd(), question);
  throw new NoAnswer('unreachable', 'The predictor cannot be reached. It has stopped or is starting again.');
}

export async function ask(path, question) {
  const query = new URLSearchParams(question);
  let reply, body;
  try {
    reply = await fetch(`tide/${path}?${query}`);
    body = await reply.text();
  } catch {
    throw new NoAnswer('unreachable', 'The server cannot be reached. Check the network.');
  }
  return answerOf(reply.status, reply.headers.get('Content-Type'), body, question);
}

/** A file beside the page, or null if it isn't there. */
export async function readBeside(file) {
  try {
    const reply = await fetch(file);
    return reply.ok ? await reply.text() : null;
  } catch {
    return null;
  }
}

/** The program's list of stations: the file beside the page, which a browser keeps, or else the program's answer. */
export const readList = async () => await readBeside('stations.txt') ?? ask('stations', {});

/** The notes on stations by their names; an empty object if the file doesn't exist. */
export async function readNotes() {
  try {
    const notes = JSON.parse(await readBeside('stations.json'));
    return typeof notes === 'object' && notes !== null ? notes : {};
  } catch {
    return {};
  }
}
