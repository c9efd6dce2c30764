import { aboutLine, clocksText, stationText, turnsOnlyText, whenText } from './about.js';
import { answerTo } from './answer.js';
import { drawChart, followPaper } from './chart.js';
import { showDifferences } from './differences.js';
import { listenToFinder, showFound, showNear, suggest, takeStations } from './finder.js';
import { askNow, nowText } from './now.js';
import { addressOf, decimalText, faultsOf, questionOf } from './question.js';
import { noteSeen } from './recent.js';
import { NoAnswer, readList, readNotes } from './replies.js';
import { element, lackText, monthSheet, thresholdText, weekSheet } from './sheets.js';
import { explainSill, listenToSills } from './sills.js';
import { readStations, withNotes } from './stations.js';
import { showTaking } from './take.js';
import { sillIn } from './units.js';
import { browserZone, dateText, daysLater, isZone, monthsLater, zoneNames } from './zones.js';

const MINUTE = 60_000, FIRST_WAIT = 5_000, LONGEST_WAIT = 60_000, TYPING_WAIT = 600;
const place = id => document.getElementById(id);
const controls = place('question').elements;
let notes = {};
let stations = [];
let shows = 0;
let graph = null;
let drawn = null;
let retry = { timer: 0, wait: FIRST_WAIT };
let typing = 0;
let present = { key: '', line: [] };

/** A station of the list; before the list is there, what the notes have about it. */
function stationOf(name) {
  const noted = Object.hasOwn(notes, name) ? { name, reference: null, notes: notes[name] } : undefined;
  return stations.find(station => station.name === name) ?? noted;
}

const usualZone = name => stationOf(name)?.notes.zone;

function question() {
  const station = new URLSearchParams(location.search).get('station');
  return questionOf(location.search, usualZone(station));
}

const addressWith = changes => addressOf(location.search, changes);
const isHere = changes => addressWith(changes) === addressWith({});

function goTo(changes) {
  if (!isHere(changes)) history.pushState(null, '', addressWith(changes));
  show();
}

function noteOf(error) {
  if (!(error instanceof NoAnswer)) throw error;
  const more = error.isNoStation ? ' Look for a part of its name above.' : '';
  return element('div', { className: 'note' }, error.message, more, ...(error.line ? [' ', element('code', {}, error.line)] : []));
}

/** Tries again to show the question, later each time, until the server answers. */
function tryLater() {
  clearTimeout(retry.timer);
  retry = { timer: setTimeout(show, retry.wait), wait: Math.min(2 * retry.wait, LONGEST_WAIT) };
  const button = element('button', { type: 'button' }, 'Try now');
  button.addEventListener('click', show);
  place('trouble').append(element('p', {}, 'The page tries again by itself. ', button));
}

/** Shows what belongs to the station and not to the answer's times; once more when the list of stations is there. */
function showStation(answer) {
  const { known, station } = answer, reference = stationOf(known?.reference), clocks = clocksText(answer);
  place('title').textContent = station;
  place('about').replaceChildren(...aboutLine(answer, reference));
  place('clocks').replaceChildren(...(clocks ? [clocks.text, element('a', { href: addressWith({ zone: clocks.zone }) }, 'Show that clock')] : []));
  place('station').textContent = known ? stationText(known) : '';
  place('notes').textContent = [turnsOnlyText(answer), lackText(answer)].filter(Boolean).join(' ');
  place('threshold').textContent = answer.isCurrent ? 'limit of' : 'sill at';
  place('sill-word').textContent = answer.isCurrent ? 'limit' : 'sill';
  place('units').textContent = answer.units;
  place('choose-units').hidden = answer.isCurrent;
  controls.units.options[0].textContent = `${answer.ownUnits} (the station's)`;
  explainSill({ ...answer, datum: known?.notes.datum ?? reference?.notes.datum });
  showDifferences(answer);
  showNear(known);
}

function showCurve(answer, isPaper = false) {
  graph?.destroy();
  graph = null;
  drawn = answer;
  place('picture').hidden = answer.view === 'month' || answer.levels.length + answer.events.length === 0 || !window.Dygraph;
  place('reading').textContent = '';
  if (place('picture').hidden) return;
  const points = new Map([...answer.levels, ...answer.marks, ...answer.lowMarks, ...answer.events].map(point => [point.moment, point]));
  const report = moment => {
    const { shown, clock } = points.get(moment) ?? {};
    place('reading').textContent = clock ? `${dateText(clock.date)} ${clock.time} ${clock.offset}: ${shown} ${answer.units}` : '';
  };
  place('chart').setAttribute('aria-label', `The curve of the week in ${answer.units}. The tables below have its events.`);
  const sill = answer.sill === null ? null : Number(answer.sill);
  graph = drawChart(place('curve'), { ...answer, sill, sillText: answer.sill === null ? '' : thresholdText(answer), report, isPaper });
}

/** Shows the hint above each table or curve that is wider than its frame. */
function showHints() {
  for (const hint of document.querySelectorAll('.hint')) {
    const frame = hint.nextElementSibling;
    hint.hidden = frame.scrollWidth <= frame.clientWidth + 1;
  }
}

/** The line of the present, or nothing if the server has no answer to it. */
async function nowLine(wanted) {
  try {
    const [word, text] = nowText(await askNow(wanted, stationOf(wanted.station)?.notes), wanted);
    return text ? [element('strong', {}, word), ` ${text}`] : [];
  } catch (error) {
    if (!(error instanceof NoAnswer)) throw error;
    return [];
  }
}

/** The line of the present for a question; within a minute the same question has the same line. */
function nowOf(wanted) {
  const { station, zone, units, hours } = wanted, key = [station, zone, units, hours, Math.floor(Date.now() / MINUTE)].join('\n');
  if (present.key !== key) present = { key, line: nowLine(wanted) };
  return present.line;
}

async function renewNow() {
  const wanted = question(), turn = shows;
  if (!wanted.station || document.hidden || place('answer').hidden) return;
  const line = await nowOf(wanted);
  if (turn === shows) place('now').replaceChildren(...line);
}

function showAnswer(answer, now, wanted) {
  place('now').replaceChildren(...now);
  showStation(answer);
  place('answer').hidden = false;
  place('sheet').replaceChildren(...(answer.view === 'week' ? weekSheet(answer) : monthSheet(answer)));
  showCurve(answer);
  showHints();
  showTaking(wanted, answer);
  place('status').textContent = `${answer.station}, ${whenText(answer)}: ${answer.events.length} events.`;
  noteSeen(answer.station);
}

/** The zones to choose: the station's, the browser's, and all others. */
function showZones(zone, name) {
  const [own, browser] = [usualZone(name), browserZone()];
  const text = value => value + (value === own ? " (the station's)" : '') + (value === browser ? " (this browser's)" : '');
  const names = [...new Set([...(isZone(own) ? [own] : []), browser, ...zoneNames(), zone])];
  controls.zone.replaceChildren(...names.map(value => new Option(text(value), value)));
  controls.zone.value = zone;
}

function showControls({ station, view, date, zone, sill, units, hours }) {
  place('question').hidden = !station;
  place('hint').hidden = Boolean(station);
  Object.entries({ view, date, sill: sill ?? '', units: units ?? '', hours }).forEach(([name, value]) => { controls[name].value = value; });
  showZones(zone, station);
  document.title = station ? `${station}: tides and currents` : 'Tides and currents';
}

function showTrouble(...parts) {
  place('answer').hidden = true;
  place('now').replaceChildren();
  place('trouble').replaceChildren(...parts);
}

/** Says what is wrong with the address, and offers the question without that. */
function showFaults(faults) {
  showTrouble(...faults.map(({ text }) => element('div', { className: 'note' }, text)),
    element('p', {}, element('a', { href: addressWith(Object.fromEntries(faults.map(({ key }) => [key, null]))) }, 'Leave out what is wrong, and show the rest')));
}

async function show() {
  clearTimeout(retry.timer);
  const wanted = question(), turn = ++shows, faults = faultsOf(location.search);
  showControls(wanted);
  place('answer').setAttribute('aria-busy', 'true');
  try {
    const isAsked = wanted.station && faults.length === 0;
    const [answer, now] = isAsked ? await Promise.all([answerTo(wanted, stationOf(wanted.station)), nowOf(wanted)]) : [null, []];
    if (turn !== shows) return;
    retry.wait = FIRST_WAIT;
    place('trouble').replaceChildren();
    if (answer) showAnswer(answer, now, wanted); else place('answer').hidden = true;
    if (faults.length > 0) showFaults(faults);
  } catch (error) {
    if (turn !== shows) return;
    showTrouble(noteOf(error));
    if (error.kind !== 'refused') tryLater();
    if (error.isNoStation) suggest(wanted.station);
  }
  place('answer').setAttribute('aria-busy', 'false');
}

function changeQuestion(event) {
  event.preventDefault();
  clearTimeout(typing);
  if (place('sills').contains(event.target)) return;
  const { view, date, sill, zone, units, hours } = controls, { station, units: before, date: shown } = question();
  const typed = decimalText(sill.value), isOther = event.target.name === 'units' && drawn && typed;
  const changes = {
    view: view.value, date: date.value || shown, sill: isOther ? sillIn(typed, drawn.ownUnits, before, units.value) : typed,
    zone: zone.value === (isZone(usualZone(station)) ? usualZone(station) : browserZone()) ? null : zone.value,
    units: units.value, hours: hours.value === '24' ? null : hours.value, year: null,
  };
  // The Enter key changes a field and then submits the form.
  if (event.type === 'change' || !isHere(changes) || place('trouble').hasChildNodes()) goTo(changes);
}

/** Shows a changed question. A date that is typed changes with each digit, so it waits for the next one, and for a year of four digits. */
function changeSoon(event) {
  clearTimeout(typing);
  if (event.target !== controls.date) changeQuestion(event);
  else if (controls.date.value >= '1000') typing = setTimeout(() => changeQuestion(event), TYPING_WAIT);
}

function listenToQuestion() {
  const move = steps => {
    const { view, date } = question();
    goTo({ date: view === 'week' ? daysLater(date, 7 * steps) : monthsLater(date, steps) });
  };
  place('question').addEventListener('change', changeSoon);
  place('question').addEventListener('submit', changeQuestion);
  controls.earlier.addEventListener('click', () => move(-1));
  controls.later.addEventListener('click', () => move(1));
  controls.today.addEventListener('click', () => goTo({ date: null }));
  controls.print.addEventListener('click', () => window.print());
  controls.year.addEventListener('click', () => location.assign(`year.html${location.search}`));
  listenToSills(sill => goTo({ sill }));
}

function listen() {
  const hasStation = () => Boolean(question().station);
  listenToFinder(hasStation);
  listenToQuestion();
  window.addEventListener('popstate', () => { showFound(hasStation()); show(); });
  window.addEventListener('resize', showHints);
  setInterval(() => { graph?.updateOptions({}); renewNow(); }, MINUTE);
  const look = () => {
    if (document.hidden) return;
    if (place('trouble').querySelector('button')) show(); else renewNow();
  };
  window.addEventListener('online', look);
  document.addEventListener('visibilitychange', look);
  followPaper(place('curve'), isPaper => { if (graph) showCurve(drawn, isPaper); });
}

/** Opens the controls of clock and printing in a wide window, and folds them in a narrow one. */
function foldControls() {
  const wide = window.matchMedia('(min-width: 45rem)');
  const fold = () => { place('more').open = wide.matches; };
  wide.addEventListener('change', fold);
  fold();
}

/** Reads the list of stations, and tries again until it is there. */
async function loadStations(wait = FIRST_WAIT) {
  try {
    stations = withNotes(readStations(await readList()), notes);
  } catch (error) {
    const trouble = noteOf(error);
    // A fault that the question has too is shown once.
    if (!place('trouble').textContent.includes(trouble.textContent)) place('count').replaceChildren(trouble);
    setTimeout(() => loadStations(Math.min(2 * wait, LONGEST_WAIT)), wait);
    return;
  }
  takeStations(stations);
  showFound(Boolean(question().station));
  const known = stationOf(drawn?.station);
  if (known && drawn.known !== known && !place('answer').hidden) {
    drawn.known = known;
    showStation(drawn);
  }
  // The days that can be had depend on the kind of the station.
  if (place('trouble').textContent.includes('out of years')) show();
}

async function start() {
  listen();
  foldControls();
  notes = await readNotes();
  await show();
  await loadStations();
}

start();
