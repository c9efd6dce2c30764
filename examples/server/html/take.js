import { answerTo } from './answer.js';
import { checkButtons } from './check_here.js';
import { calendarOf, csvOf, fileName } from './export.js';
import { ask, NoAnswer } from './replies.js';
import { element } from './sheets.js';
import { dateText } from './zones.js';

const place = id => document.getElementById(id);
const KINDS = {
  CSV: ['csv', 'text/csv', async answer => csvOf(answer)],
  Calendar: ['ics', 'text/calendar', async answer => calendarOf(answer, Date.now())],
};

function download(name, type, text) {
  const address = URL.createObjectURL(new Blob([text], { type }));
  const link = element('a', { href: address, download: name });
  link.click();
  setTimeout(() => URL.revokeObjectURL(address), 60_000);
}

/** Makes a file from the program's answer and hands it to the browser; says on the page if that fails. */
async function take(question, station, ending, type, textOf) {
  place('taken').textContent = 'Making the file ..';
  try {
    const answer = await answerTo(question, station), name = fileName(answer, ending);
    download(name, type, await textOf(answer));
    place('taken').textContent = `${name} is ready.`;
  } catch (error) {
    if (!(error instanceof NoAnswer)) throw error;
    place('taken').textContent = error.message;
  }
}

/** The program's certificate of an answer's events, with the sill or one side of the limit. */
const certify = side => ({ span: { station, begin, end }, marksAsked }) =>
  ask('certify', { station, begin, end, ...(marksAsked.length > 0 ? { mark: marksAsked[side] } : {}) });

function buttonsFor(question, station, about, hasLimit) {
  const limit = `${about.sill} ${about.units}`;
  const certificates = hasLimit
    ? { [`Certificate, flood of ${limit}`]: ['flood.txt', 'text/plain', certify(0)], [`Certificate, ebb of ${limit}`]: ['ebb.txt', 'text/plain', certify(1)] }
    : { Certificate: ['txt', 'text/plain', certify(0)] };
  return Object.entries({ ...KINDS, ...certificates }).map(([word, kind]) => {
    const button = element('button', { type: 'button' }, word);
    button.addEventListener('click', () => take(question, station, ...kind));
    return button;
  });
}

/** Offers the shown week, its month and its year as files. */
export function showTaking(question, answer) {
  const { date } = question, hasLimit = answer.isCurrent && answer.sill !== null;
  const rows = [['week', `Week from ${dateText(date)}`], ['month', dateText(date, { month: 'long', year: 'numeric' })], ['year', `Year ${date.slice(0, 4)}`]];
  place('taken').textContent = '';
  place('check').replaceChildren(...checkButtons(answer));
  place('take').querySelector('ul').replaceChildren(...rows.map(([view, text]) => element('li', {},
    element('span', {}, text), ' ', ...buttonsFor({ ...question, view }, answer.known, answer, hasLimit))));
}
