import { readRecords } from './csv.js';
import { readBeside } from './replies.js';
import { element } from './sheets.js';

const place = id => document.getElementById(id);

/** A difference of time such as `-1:05`, as `1 h 05 min earlier`. */
function timeText(add) {
  const [, sign, hours, minutes] = /^([+-]?)(\d\d?):(\d\d)$/.exec(add) ?? ['', '', 0, 0];
  if (Number(hours) + Number(minutes) === 0) return 'at the same time';
  return `${Number(hours)} h ${minutes} min ${sign === '-' ? 'earlier' : 'later'}`;
}

/** A factor and a level to add, as `levels × 0.93 + 0.1 feet`, or '' if they change nothing. */
function levelText(times, plus, units) {
  const [factor, sum] = [Number(times || 1), Number(plus || 0)];
  const parts = [factor === 1 ? '' : ` × ${factor}`, sum === 0 ? '' : ` ${sum < 0 ? '−' : '+'} ${Math.abs(sum)} ${units}`].join('');
  return parts && `levels${parts}`;
}

/** How a station's events differ from its reference's, a line for each kind of event, from its row of the table of offsets. */
export function differencesOf(row, { isCurrent, ownUnits }) {
  const [high, low] = isCurrent ? ['Greatest floods', 'Greatest ebbs'] : ['High waters', 'Low waters'];
  const lineOf = kind => [timeText(row[`${kind}_add`]), levelText(row[`${kind}_times`], row[`${kind}_plus`], ownUnits)].filter(Boolean).join(', ');
  const slacks = ['flood', 'ebb'].filter(kind => isCurrent && row[`${kind}_add`]).map(kind => `Slacks before ${kind}: ${timeText(row[`${kind}_add`])}`);
  return [`${high}: ${lineOf('high')}`, `${low}: ${lineOf('low')}`, ...slacks];
}

/** The lines of a station, from the server's table, or why there are none. */
async function linesFor(answer) {
  const row = readRecords(await readBeside('offsets.csv') ?? '').find(({ name }) => name === answer.station);
  return row ? differencesOf(row, answer) : ['The server has no table of differences with this station.'];
}

/** Offers the differences of a subordinate station from its reference, which are read once they are asked for. */
export function showDifferences(answer) {
  const box = place('differences'), reference = answer.known?.reference;
  box.hidden = !reference;
  if (!reference || box.dataset.station === answer.station) return;
  box.open = false;
  box.dataset.station = answer.station;
  box.replaceChildren(element('summary', {}, `Differences from ${reference}`));
  box.ontoggle = async () => {
    if (!box.open || box.childElementCount > 1) return;
    const list = element('ul');
    box.append(list);
    list.append(...(await linesFor(answer)).map(line => element('li', {}, line)));
  };
}
