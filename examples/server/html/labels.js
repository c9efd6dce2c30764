const LINE = 13, GAP = 7, MARGIN = 2;
/** Pixels of height beyond the curve for labels of two lines, and for crowded labels, some of which are lines farther or upright. */
const FLAT = GAP + 2 * LINE + 4, UPRIGHT = 74;
/** How many lines farther from its point a label may be, and by how many of its widths it may be shifted. */
const STEPS = [0, 1, 2, 3, 4], SHIFTS = [0, -0.25, 0.25, -0.5, 0.5], UPRIGHT_SHIFTS = [0, -0.2, 0.2, -0.4, 0.4];
/** What it costs to cross the curve, in places of the order, and how often each label is placed. */
const CURVE = 8, ROUNDS = 3;

const crosses = (one, other) => one.left < other.right && other.left < one.right && one.top < other.bottom && other.top < one.bottom;
const clamp = (value, low, high) => Math.max(low, Math.min(value, Math.max(low, high)));

/** A box of a size around `x`, which begins (or, above the curve, ends) at `y`, moved into the area. */
function boxAt(x, y, [width, height], isAbove, area) {
  const middle = clamp(x, area.x + width / 2 + MARGIN, area.x + area.w - width / 2 - MARGIN);
  const top = clamp(isAbove ? y - height : y, area.y, area.y + area.h - height);
  return { left: middle - width / 2, right: middle + width / 2, top, bottom: top + height };
}

/** The box around some boxes. */
const aroundAll = boxes => ({
  left: Math.min(...boxes.map(({ left }) => left)), right: Math.max(...boxes.map(({ right }) => right)),
  top: Math.min(...boxes.map(({ top }) => top)), bottom: Math.max(...boxes.map(({ bottom }) => bottom)),
});

/** The boxes that an event's label may have, the best first: next to its point, farther away, on the other side, and upright. */
function choices({ x, y, isAbove, width, length }, area) {
  const boxes = (isUpright, above, lines, shifts) => shifts.map(shift => ({
    ...boxAt(x + shift * width, y + (above ? -1 : 1) * (GAP + lines * LINE), isUpright ? [LINE, length] : [width, 2 * LINE], above, area), isUpright,
  }));
  return [
    ...STEPS.flatMap(lines => boxes(false, isAbove, lines, SHIFTS)), ...boxes(false, !isAbove, 0, SHIFTS),
    ...boxes(true, isAbove, 0, UPRIGHT_SHIFTS), ...boxes(true, !isAbove, 0, UPRIGHT_SHIFTS),
  ];
}

/** The box with the least cost: its place in the order, more if it crosses the curve, and still more for each label or point that it crosses. */
function bestOf(boxes, obstacles, curve) {
  const costs = boxes.map((box, place) => place + (curve.some(point => crosses(box, point)) ? CURVE : 0)
    + boxes.length * obstacles.filter(obstacle => crosses(box, obstacle)).length);
  return boxes[costs.indexOf(Math.min(...costs))];
}

/**
 * The boxes of labels in their order, with as few crossings as can be found in some rounds. A label has its point (`x`, `y`),
 * the `width` of its two lines, the `length` of both in one line, and `isAbove`. `others` are the boxes of other texts, and
 * `curve` the points of the curve as boxes.
 */
export function placeLabels(labels, area, others = [], curve = []) {
  const points = labels.map(({ x, y }) => ({ left: x - 4, right: x + 4, top: y - 4, bottom: y + 4 }));
  const boxes = labels.map(label => choices(label, area)), placed = [];
  for (let round = 0; round < ROUNDS; round += 1) {
    boxes.forEach((some, index) => {
      const whole = aroundAll(some), isNear = box => crosses(whole, box);
      const obstacles = [...placed.filter((_, place) => place !== index), ...points, ...others].filter(isNear);
      placed[index] = bestOf(some, obstacles, curve.filter(isNear));
    });
  }
  return placed;
}

/** Whether labels of a width would cross, of positions on a line in order. */
export const isCrowded = (positions, width) => positions.some((x, place) => place > 0 && x - positions[place - 1] < width + 3);

/** Pixels of height for labels of a width at positions on a line in order. */
export const roomFor = (positions, width) => (isCrowded(positions, width) ? UPRIGHT : FLAT);

/** Where a box of a width crosses the fewest of some boxes: its left edge, and how many it crosses. */
export function freeX(width, [top, bottom], boxes, area) {
  const near = boxes.filter(box => box.top < bottom && top < box.bottom);
  const crossed = left => near.filter(box => crosses(box, { left: left - 4, right: left + width + 4, top, bottom })).length;
  return Array.from({ length: Math.max(1, Math.floor((area.w - width) / 6)) }, (_, index) => area.x + 6 + 6 * index)
    .map(left => ({ left, count: crossed(left) })).reduce((best, place) => (place.count < best.count ? place : best));
}

/** The steps of an axis between two levels, at least some pixels apart: one, two or five times a power of ten. */
export function stepsOf(low, high, height, apart = 30) {
  const least = (high - low) * apart / Math.max(height, 1), power = 10 ** Math.floor(Math.log10(least));
  const step = [1, 2, 5, 10].map(times => times * power).find(size => size >= least);
  const digits = Math.max(0, -Math.floor(Math.log10(step) + 1e-9));
  const first = Math.ceil(low / step - 1e-9);
  return Array.from({ length: Math.max(0, Math.floor(high / step + 1e-9) - first + 1) }, (_, place) => {
    const v = (first + place) * step;
    return { v, label: v.toFixed(digits).replace(/^-(0(\.0+)?)$/, '$1').replace('-', '\u2212') };
  });
}
