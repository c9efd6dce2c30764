import { turnsOnlyText } from './about.js';
import { answerTo } from './answer.js';
import { addressOf, decimalText, faultsOf, PAPERS, questionOf } from './question.js';
import { NoAnswer, readBeside, readList, readNotes } from './replies.js';
import { element } from './sheets.js';
import { readStations, withNotes } from './stations.js';
import { zoneNames } from './zones.js';
import { clockChanges, layoutOf } from './year_days.js';
import { textLengths, yearSheets } from './year_sheets.js';

const place = id => document.getElementById(id);
const controls = place('question').elements;
/** By year.css, in mm: the greatest height of a line, that of a line of text, and the height of all else on a sheet. */
const MOST_HIGH = 5, TEXT = 3.4, AROUND = 30;
/** The letters that a line of text and one of the station's name have at least. A line of a name is less high than two of text. */
const LETTERS = 115, NAME_LETTERS = 88;

const noted = (all, name) => (Object.hasOwn(all, name) && all[name]) || {};

/** The files of constants with their SHA-256, from the lines of sha256sum. */
async function constantsOf() {
  const lines = (await readBeside('constants.sha256') ?? '').split('\n').map(line => /^([0-9a-f]{64}) [ *](.*)$/.exec(line));
  return lines.filter(Boolean).map(([, sum, file]) => `Constants: ${file.split('/').at(-1)}, SHA-256 ${sum}`);
}

/** The question of the address, for the year that it names, that of its date, or the present one. */
function questionFor(notes) {
  const question = questionOf(location.search, notes.zone), named = new URLSearchParams(location.search).get('year');
  const year = Number(named?.trim() || question.date.slice(0, 4));
  return { ...question, view: 'year', year, date: `${String(year).padStart(4, '0')}-01-01` };
}

function addStyle(text) {
  const style = new CSSStyleSheet();
  style.replaceSync(text);
  document.adoptedStyleSheets = [...document.adoptedStyleSheets, style];
}

/** Sets the paper for printing, if the address names one. */
function setPaper() {
  const paper = PAPERS.find(name => name === new URLSearchParams(location.search).get('paper'));
  if (paper) addStyle(`@page { size: ${paper}; }`);
}

/** Has the fullest column fill the height of the paper. */
function fillPaper(answer, { most }) {
  const names = Math.ceil(answer.station.length / NAME_LETTERS) - 1;
  const texts = textLengths(answer).reduce((sum, length) => sum + Math.ceil(length / LETTERS), 2 * names);
  const height = `min(${MOST_HIGH}mm, calc((100vh - ${AROUND + TEXT * texts}mm) / ${most}))`;
  addStyle(`@media print { .column td, .column tbody th { line-height: ${height}; } }`);
}

/** What the sheets show. */
async function askYear(question, all) {
  const stations = withNotes(readStations(await readList()), all);
  const known = stations.find(({ name }) => name === question.station);
  const [answer, constants] = await Promise.all([answerTo(question, known), constantsOf()]);
  const changes = clockChanges(answer.begin, answer.end, question.zone);
  const points = [...changes, ...answer.events].sort((one, other) => one.moment - other.moment);
  return {
    ...answer, changes, points, constants, offset: answer.clockOf(answer.begin).offset,
    datum: noted(all, question.station).datum ?? noted(all, known?.reference).datum ?? null,
  };
}

function note(...parts) {
  place('trouble').append(element('div', { className: 'note' }, ...parts));
}

/** A link to the page of the week, where stations can be found. */
const weekLink = text => element('a', { href: place('week').href }, text);

function showControls({ station, year, zone, sill, units }) {
  controls.zone.append(...zoneNames().map(name => new Option(name, name)));
  if (![...controls.zone.options].some(({ value }) => value === zone)) controls.zone.append(new Option(zone, zone));
  Object.entries({ year, zone, sill: sill ?? '' }).forEach(([key, value]) => { controls[key].value = value; });
  place('units').textContent = units ?? '';
  place('week').href = `index.html${addressOf(location.search, { year: null, paper: null })}`;
  document.title = `${station || 'A station'}, ${year}: tides and currents`;
}

function listen() {
  place('question').addEventListener('submit', submit => {
    submit.preventDefault();
    const { year, zone, sill } = controls;
    location.search = addressOf(location.search, { year: year.value, zone: zone.value, sill: decimalText(sill.value) });
  });
  controls.print.addEventListener('click', () => window.print());
}

async function show(question, all) {
  try {
    const answer = await askYear(question, all);
    place('threshold').textContent = answer.isCurrent ? 'limit of' : 'sill at';
    place('units').textContent = answer.units;
    if (answer.isTurnsOnly && answer.wantedSill !== null) note(turnsOnlyText(answer));
    const layout = layoutOf(answer);
    place('sheets').replaceChildren(...yearSheets(answer, layout));
    fillPaper(answer, layout);
  } catch (error) {
    if (!(error instanceof NoAnswer)) throw error;
    note(error.message, ...(error.isNoStation ? [' ', weekLink('Look for a part of its name.')] : []), ...(error.line ? [' ', element('code', {}, error.line)] : []));
  }
}

async function start() {
  const all = await readNotes(), faults = faultsOf(location.search);
  const question = questionFor(noted(all, new URLSearchParams(location.search).get('station')));
  showControls(question);
  listen();
  setPaper();
  faults.forEach(({ text }) => note(text));
  if (!question.station) note(weekLink('Choose a station on the page of the week.'));
  else if (faults.length === 0) await show(question, all);
  place('sheets').setAttribute('aria-busy', 'false');
}

start();
