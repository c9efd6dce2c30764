import { isNumber } from './units.js';

const place = id => document.getElementById(id);
const FIELDS = ['depth', 'draught', 'clearance'];

/** A decimal as it is typed, or null. */
const typed = text => {
  const decimal = text.trim().replace(',', '.');
  return isNumber(decimal) ? Number(decimal) : null;
};

/** The sill for a vessel: her draught and the clearance below her keel, less the charted depth. Without a clearance it is 0. */
export function sillFor({ depth, draught, clearance }) {
  const numbers = [depth, draught, clearance.trim() === '' ? '0' : clearance].map(typed);
  if (numbers.includes(null)) return null;
  const [chart, keel, room] = numbers;
  return String(Number((keel + room - chart).toFixed(6)) + 0);
}

function valueOf() {
  return sillFor(Object.fromEntries(FIELDS.map(name => [name, place(name).value])));
}

function showValue() {
  const sill = valueOf();
  place('use-sill').disabled = sill === null;
  place('computed').textContent = sill === null ? '' : `Draught + clearance - charted depth = ${sill} ${place('sill-units').textContent}`;
}

/** Explains what to type as a tide's sill or as a current's limit, in its units and above its datum. */
export function explainSill({ isCurrent, units, datum }) {
  place('sill-tide').hidden = isCurrent;
  place('sill-current').hidden = !isCurrent;
  place('sill-units').textContent = units;
  place('sill-datum').textContent = datum || 'the datum of the predictions';
  for (const unit of document.querySelectorAll('#sill-tide .unit')) unit.textContent = units;
  showValue();
}

/** Listens to the fields that compute a sill, which `use` takes. */
export function listenToSills(use) {
  const useValue = () => { if (valueOf() !== null) use(valueOf()); };
  for (const name of FIELDS) {
    place(name).addEventListener('input', showValue);
    place(name).addEventListener('keydown', press => {
      if (press.key !== 'Enter') return;
      press.preventDefault();
      useValue();
    });
  }
  place('use-sill').addEventListener('click', useValue);
}
