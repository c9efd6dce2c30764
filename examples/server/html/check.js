import { levelText, linesOf } from './check_rules.js';
import { readSums } from './check_sha.js';
import { browserZone, clockAt, dateText, isZone, zoneNames } from './zones.js';

const MEANINGS = {
  0: 'By these constants no event of this list is wrong, and none is missing. It isn’t shown that the constants are right for the harbour'
    + ' (compare their SHA-256 with the published one), nor what the sea does: wind, air pressure and rivers move the water too.',
  1: 'The certificate is wrong by these constants: it was altered, or made with other constants. Don’t use its list.',
  3: 'A file breaks a rule of its form, at the line or row that is named. Nothing else was checked.',
  4: 'The certificate’s question has no answer with these constants. Its list was not checked.',
  5: 'The certificate’s question exceeds a limit. Its list was not checked.',
  6: 'A file can’t be read. It may have been moved or changed: choose it again.',
};
const FILES = { file: ['constants', 'constants.txt'], offsets: ['table', 'offsets.csv'], certificate: ['certificate', 'list.cert'] };
const place = id => document.getElementById(id);
const controls = place('files').elements, zones = document.querySelector('[name=zone]'), progress = document.querySelector('progress');
const query = new URLSearchParams(location.search), isAlone = !location.protocol.startsWith('http');
let worker = null, result = null, turn = 0;

function element(name, traits, ...children) {
  const made = Object.assign(document.createElement(name), traits);
  made.append(...children);
  return made;
}

/** A minute by the clock of the chosen zone, with the program's name of its offset. */
function clockOf(minute) {
  const clock = clockAt(minute * 60_000, zones.value), offset = zones.value === 'UTC' ? 'UTC' : clock.offset;
  return { ...clock, offset, text: `${clock.date} ${clock.time} ${offset}` };
}

/** The heads of a day's columns, which are only for screen readers. */
function heads(unit) {
  const head = text => element('th', { scope: 'col' }, element('span', { className: 'unseen' }, text));
  return element('thead', { className: 'unseen-heads' }, element('tr', {}, ...['Time', `Level in ${unit}`, 'Event'].map(head)));
}

function dayTable([date, events], unit, hasOffsets) {
  const rows = events.map(({ time, offset, level, label }) => element('tr', {}, element('td', {}, hasOffsets ? `${time} ${offset}` : time),
    element('td', { className: 'level' }, levelText(level)), element('td', {}, label ?? 'Highest')));
  return element('table', {}, element('caption', {}, dateText(date, { weekday: 'short', day: 'numeric', month: 'short', year: 'numeric' })), heads(unit),
    element('tbody', {}, ...rows));
}

function show() {
  const { status, lines, station, begin, end, unit, mark, events } = result.answer;
  place('verdict').textContent = lines[0];
  place('verdict').className = status === 0 ? 'accepted' : '';
  place('meaning').textContent = MEANINGS[status];
  place('lines').textContent = [...(status === 0 ? linesOf(result.answer, minute => clockOf(minute).text) : lines), ''].join('\n');
  place('status').textContent = status;
  place('answer').hidden = false;
  place('list').hidden = status !== 0;
  if (status !== 0) return;
  const days = new Map(), offsets = new Set();
  for (const event of events) {
    const clock = clockOf(event.minute);
    offsets.add(clock.offset);
    days.set(clock.date, [...(days.get(clock.date) ?? []), { ...event, ...clock }]);
  }
  place('title').textContent = station;
  const marked = mark === undefined ? '' : `, with a mark at ${Number(mark) / 1e6}`;
  place('about').textContent = `In ${unit}${marked}, from ${clockOf(begin).text} up to ${clockOf(end).text}`;
  place('offsets').textContent = zones.value === 'UTC' ? '' : [...offsets].join(', ');
  place('days').replaceChildren(...Array.from(days, day => dayTable(day, unit, offsets.size > 1)));
}

/** Shows the SHA-256 of each file, which can be saved, and whether it is among what the user pasted, or what is wrong with that. */
function showSums() {
  const { sums: known, fault } = readSums(controls.known.value);
  place('pasted').hidden = fault === '';
  place('pasted').textContent = fault;
  const other = which => element('strong', { className: 'warning' }, known.length > 0 && which !== 'certificate' ? ' is NOT the published one' : '');
  place('sums').replaceChildren(...Object.entries(result?.sums ?? {}).map(([which, sum]) => element('p', {}, 'SHA-256 of the ',
    element('a', { href: URL.createObjectURL(result.files[which]), download: FILES[which][1] }, FILES[which][0]), ' ',
    element('code', {}, sum), known.includes(sum) ? element('strong', {}, ' is the published one') : other(which))));
}

function stop(trouble = '') {
  turn += 1;
  worker?.terminate();
  progress.hidden = controls.stop.hidden = true;
  place('trouble').hidden = trouble === '';
  place('trouble').textContent = trouble;
}

/** A worker from its module, or from its text in the page that is one file. */
function newWorker() {
  const code = place('worker')?.textContent;
  return code ? new Worker(URL.createObjectURL(new Blob([code]))) : new Worker('check_worker.js', { type: 'module' });
}

/** Has a worker check some files, and shows what it answers. */
function start(files) {
  worker = newWorker();
  worker.onerror = ({ message }) => stop(`The check has failed. ${message}`);
  worker.onmessage = ({ data }) => {
    if (data.part !== undefined) return void (progress.value = data.part);
    result = { ...data, files };
    stop();
    showSums();
    show();
    place('verdict').focus();
  };
  worker.postMessage(files);
}

/** A file of the server. The table is undefined if there is none. */
async function fetched(address) {
  const reply = await fetch(address);
  if (reply.ok || address === 'offsets.csv') return reply.ok ? reply.blob() : undefined;
  throw new Error(`${address.split('?')[0]}: ${reply.status === 422 ? await reply.text() : `status ${reply.status}`}`);
}

/** The files to check: the chosen ones, and else the server's. */
async function filesOf() {
  const [certificate, file, offsets] = ['certificate', 'file', 'offsets'].map(name => controls[name].files[0]);
  const question = new URLSearchParams(['station', 'begin', 'end', 'mark'].filter(key => query.has(key)).map(key => [key, query.get(key)]));
  const files = { file: file ?? await fetched('constants.txt'), certificate: certificate ?? await fetched(`tide/certify?${question}`) };
  const table = offsets ?? (file ? undefined : await fetched('offsets.csv'));
  return table ? { ...files, offsets: table } : files;
}

function checkNow(event) {
  event?.preventDefault();
  stop();
  place('answer').hidden = true;
  result = null;
  progress.removeAttribute('value');
  progress.hidden = controls.stop.hidden = false;
  const own = turn, ifOwn = action => value => (own === turn ? action(value) : null);
  filesOf().then(ifOwn(start)).catch(ifOwn(({ message }) => stop(`The server’s files can’t be had. ${message}`)));
}

zones.replaceChildren(...[...new Set(['UTC', browserZone(), ...zoneNames()])].map(name => new Option(name, name)));
if (isZone(query.get('zone'))) zones.value = query.get('zone');
zones.addEventListener('change', () => result && show());
controls.known.addEventListener('input', showSums);
controls.stop.addEventListener('click', () => stop());
place('files').addEventListener('submit', checkNow);
place('served').hidden = controls.file.required = isAlone;
controls.certificate.required = isAlone || !query.has('station');
showSums();
if (query.has('station') && !isAlone) checkNow();
