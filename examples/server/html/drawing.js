import { isMark, isSlack, isTop } from './events.js';
import { freeX, isCrowded, placeLabels } from './labels.js';

const FONT = '11px system-ui, sans-serif', BOLD = `bold ${FONT}`;
/** Pixels of height for the times of slacks, upright. */
const UPRIGHT_SLACKS = 44;

const ruler = document.createElement('canvas').getContext('2d');
function widthOf(text, font = FONT) {
  ruler.font = font;
  return ruler.measureText(text).width;
}

function write(context, text, x, y, colors, traits = {}) {
  Object.assign(context, { font: FONT, textAlign: 'center', textBaseline: 'middle', fillStyle: colors.ink,
    lineWidth: 3, lineJoin: 'round', strokeStyle: colors.page, ...traits });
  context.strokeText(text, x, y);
  context.fillText(text, x, y);
}

function writeUpwards(context, text, x, y, colors, traits) {
  context.save();
  context.translate(x, y);
  context.rotate(-Math.PI / 2);
  write(context, text, 0, 0, colors, traits);
  context.restore();
}

export function drawLine(context, from, to, traits, dashes = []) {
  Object.assign(context, { lineWidth: 1.5, ...traits });
  context.setLineDash(dashes);
  context.beginPath();
  context.moveTo(...from);
  context.lineTo(...to);
  context.stroke();
  context.setLineDash([]);
}

export function drawPoint(context, [x, y], { color, fill, size }) {
  Object.assign(context, { fillStyle: fill, strokeStyle: color, lineWidth: 1.5 });
  context.beginPath();
  context.arc(x, y, size, 0, 2 * Math.PI);
  context.fill();
  context.stroke();
}

/** The events with a label of two lines, and those with a label at the bottom. */
export function partsOf({ events }) {
  const shown = events.filter(event => !isMark(event));
  return { turns: shown.filter(event => !isSlack(event)), slacks: shown.filter(isSlack) };
}

export const turnWidth = ({ clock, shown }) => Math.max(widthOf(clock.time), widthOf(shown, BOLD));

/** Joins a point with its label if that isn't next to it. */
function drawLeader(context, [x, y], { left, right, top, bottom }, colors) {
  const edge = bottom < y ? bottom : top;
  if (Math.abs(edge - y) > 12) drawLine(context, [x, y], [Math.min(Math.max(x, left), right), edge], { strokeStyle: colors.guide, lineWidth: 1 });
}

/** Writes the level and the time of each turn where they cross as little as can be, and returns the boxes of these labels. */
function drawTurns(context, area, graph, turns, { others, curve }, colors) {
  const labels = turns.map(event => ({
    event, x: graph.toDomXCoord(event.moment), y: graph.toDomYCoord(event.level), isAbove: isTop(event),
    width: turnWidth(event) + 4, length: widthOf(`${event.clock.time}  `) + widthOf(event.shown, BOLD),
  }));
  const boxes = placeLabels(labels, area, others, curve);
  labels.forEach(({ x, y }, place) => drawLeader(context, [x, y], boxes[place], colors));
  labels.forEach(({ event: { clock, shown }, x, y }, place) => {
    const { left, right, top, bottom, isUpright } = boxes[place], middle = (left + right) / 2;
    if (isUpright) {
      writeUpwards(context, clock.time, middle, bottom, colors, { textAlign: 'left' });
      writeUpwards(context, shown, middle, top, colors, { textAlign: 'right', font: BOLD });
    } else {
      write(context, clock.time, middle, top + 6.5, colors);
      write(context, shown, middle, bottom - 6.5, colors, { font: BOLD });
    }
    drawPoint(context, [x, y], { color: colors.water, fill: colors.water, size: 3.5 });
  });
  return boxes;
}

const slackPositions = (slacks, word, xOf) =>
  slacks.filter(({ event }) => event === `Slack ${word} Begins`).map(({ moment }) => xOf(moment));

/** Whether the times of slacks fit two lines, one for those before flood and one for those before ebb. */
export function fitLines(slacks, xOf) {
  const width = Math.max(0, ...slacks.map(({ clock }) => widthOf(clock.time)));
  return ['Flood', 'Ebb'].every(word => !isCrowded(slackPositions(slacks, word, xOf), width));
}

/** Writes the times of slacks at the bottom, away from the curve, and returns the boxes of these times. */
function drawSlacks(context, area, graph, slacks, colors) {
  const isFlat = fitLines(slacks, moment => graph.toDomXCoord(moment)), bottom = area.y + area.h;
  return slacks.map(event => {
    const x = graph.toDomXCoord(event.moment), y = graph.toDomYCoord(event.level);
    const half = isFlat ? widthOf(event.clock.time) / 2 : 6;
    const middle = Math.min(Math.max(x, area.x + half + 2), area.x + area.w - half - 2);
    const line = bottom - (event.event === 'Slack Flood Begins' ? 22 : 8), top = isFlat ? line - 7 : bottom - UPRIGHT_SLACKS + 6;
    drawLine(context, [x, y + 4], [x, top], { strokeStyle: colors.guide, lineWidth: 1 }, [1, 3]);
    if (isFlat) write(context, event.clock.time, middle, line, colors);
    else writeUpwards(context, event.clock.time, middle, bottom - 4, colors, { textAlign: 'left' });
    drawPoint(context, [x, y], { color: colors.water, fill: colors.page, size: 3.5 });
    return { left: middle - half, right: middle + half, top, bottom: isFlat ? line + 7 : bottom };
  });
}

/** The points of the curve as boxes. */
const curveOf = (graph, levels) => levels.map(({ moment, level }) => [graph.toDomXCoord(moment), graph.toDomYCoord(level)])
  .map(([x, y]) => ({ left: x - 1, right: x + 1, top: y, bottom: y + 1 }));

/** The levels of the lines for a sill, or for both sides of a limit. */
export const linesOf = ({ sill, isCurrent }) => (sill === null ? [] : isCurrent ? [sill, -sill] : [sill]);

/** Draws the lines of the sill or the limit, and marks the times above the one or within the other. */
function drawThreshold(context, area, graph, picture, colors) {
  const lines = linesOf(picture).map(level => graph.toDomYCoord(level));
  for (const y of lines) drawLine(context, [area.x, y], [area.x + area.w, y], { strokeStyle: colors.mark, lineWidth: 1 });
  for (const { from, to } of picture.times) {
    const [left, right] = [from, to].map(moment => graph.toDomXCoord(moment)), width = Math.max(right - left, 1);
    if (lines.length === 1) drawLine(context, [left, lines[0]], [left + width, lines[0]], { strokeStyle: colors.mark, lineWidth: 4 });
    context.fillStyle = colors.band;
    if (lines.length === 2) context.fillRect(left, lines[0], width, lines[1] - lines[0]);
  }
}

/** Shades every second day behind the curve, and draws the sill's line and, but for paper, the line of the present moment. */
export function drawBehind(context, area, graph, days, picture, colors) {
  context.fillStyle = colors.shade;
  for (let index = 0; index + 1 < days.length; index += 2) {
    const [left, right] = [days[index], days[index + 1]].map(({ start }) => graph.toDomXCoord(start));
    context.fillRect(left, area.y, right - left, area.h);
  }
  if (picture.sill !== null) drawThreshold(context, area, graph, picture, colors);
  const now = graph.toDomXCoord(Date.now());
  if (picture.isPaper || now < area.x || now >= area.x + area.w) return;
  drawLine(context, [now, area.y], [now, area.y + area.h], { strokeStyle: colors.now });
}

/** Joins the turns of a station without a curve by thin dashed lines. */
function drawJoins(context, graph, events, colors) {
  const points = events.map(({ moment, level }) => [graph.toDomXCoord(moment), graph.toDomYCoord(level)]);
  points.slice(1).forEach((point, place) => drawLine(context, points[place], point, { strokeStyle: colors.water, lineWidth: 1 }, [3, 4]));
}

/** Writes the name of a line, or its level alone, above or below the line, where it crosses the fewest of some boxes; returns its box. */
function nameLine(context, area, y, name, boxes, colors) {
  const middles = [y - 9.5, y + 9.5].filter(middle => middle - 7 >= area.y && middle + 7 <= area.y + area.h);
  const places = [name, name.replace(/^\w+ (at|of) /, '')].flatMap(text => middles.map(middle =>
    ({ text, middle, ...freeX(widthOf(text, BOLD), [middle - 6.5, middle + 6.5], boxes, area) })));
  const { text, middle, left } = places.reduce((best, place) => (place.count < best.count ? place : best));
  write(context, text, left, middle, colors, { font: BOLD, fillStyle: colors.mark, textAlign: 'left' });
  return { left, right: left + widthOf(text, BOLD), top: middle - 6.5, bottom: middle + 6.5 };
}

/** Draws in front of the curve: the events, the name of the sill or on both sides that of the limit, and 'now'. */
export function drawBefore(context, area, graph, picture, colors) {
  const { turns, slacks } = partsOf(picture);
  if (picture.levels.length === 0) drawJoins(context, graph, picture.events, colors);
  for (const { moment, level } of picture.passes) {
    drawPoint(context, [graph.toDomXCoord(moment), graph.toDomYCoord(level)], { color: colors.mark, fill: colors.mark, size: 2 });
  }
  const curve = curveOf(graph, picture.levels), others = drawSlacks(context, area, graph, slacks, colors);
  const labels = [...others, ...drawTurns(context, area, graph, turns, { others, curve }, colors)];
  const boxes = [...labels, ...labels, ...labels, ...curve];
  for (const level of linesOf(picture)) boxes.push(nameLine(context, area, graph.toDomYCoord(level), picture.sillText, boxes, colors));
  const now = graph.toDomXCoord(Date.now());
  if (picture.isPaper || now < area.x || now >= area.x + area.w) return;
  const isLate = now > area.x + area.w - 40;
  write(context, 'now', now + (isLate ? -4 : 4), area.y + 8, colors, { font: BOLD, fillStyle: colors.now, textAlign: isLate ? 'right' : 'left' });
}
