import { drawBefore, drawBehind, drawLine, drawPoint, fitLines, linesOf, partsOf, turnWidth } from './drawing.js';
import { isTop } from './events.js';
import { roomFor, stepsOf } from './labels.js';
import { dateText, startOfDay } from './zones.js';

/** Pixels of height for the dates, and for the times of slacks in two lines or upright. */
const DATES = 20, SLACKS = 32, UPRIGHT_SLACKS = 44;
/** A width that fits A4 and Letter beside the axis, for a browser that doesn't report the width of its paper. */
const PAPER = '650px';
const NO_CURVE = 'The dashed lines only join the events, and are no prediction.';
const CURRENT = 'Flood is above 0, ebb below. The times at the bottom are the slack waters';
const COLORS = ['ink', 'water', 'mark', 'band', 'now', 'guide', 'grid', 'shade', 'page'];

/** The colours of style.css. */
const colorsOf = box => Object.fromEntries(COLORS.map(name => [name, getComputedStyle(box).getPropertyValue(`--${name}`).trim()]));

/** A row for each moment of the levels and the events: the moment, its level, and the level again at an event. */
function rowsOf(levels, events) {
  const rows = new Map(levels.map(({ moment, level }) => [moment, [new Date(moment), level, null]]));
  for (const { moment, level } of events) rows.set(moment, [new Date(moment), levels.length > 0 ? level : null, level]);
  return [...rows.values()].sort((one, other) => one[0] - other[0]);
}

/** The least and the greatest level of a picture of some height, with pixels above and below them for labels. */
export function rangeOf(levels, height, above, below) {
  const low = Math.min(...levels), high = Math.max(...levels);
  const pixel = (high - low || 1) / Math.max(height - DATES - above - below, 50);
  return [low - below * pixel, high + above * pixel];
}

/** The range of a picture's levels in a box. */
function rangeIn(box, picture, days) {
  const { turns, slacks } = partsOf(picture), [begin, end] = [days[0].start, days.at(-1).start];
  const xOf = moment => (moment - begin) / (end - begin) * box.clientWidth;
  const width = Math.max(0, ...turns.map(turnWidth));
  const room = isAbove => roomFor(turns.filter(event => isTop(event) === isAbove).map(({ moment }) => xOf(moment)), width);
  const belowSlacks = slacks.length === 0 ? 0 : fitLines(slacks, xOf) ? SLACKS : UPRIGHT_SLACKS;
  const levels = [...picture.levels, ...picture.events].map(({ level }) => level).concat(linesOf(picture));
  return rangeOf(levels, box.clientHeight, room(true), room(false) + belowSlacks);
}

/** Puts the levels of the lines of a picture, and their unit, beside a frame that scrolls; it takes its room before the picture does. */
function showLevels(frame, steps, units) {
  const axis = frame.parentElement.querySelector('.axis') ?? document.createElement('div');
  Object.assign(axis, { className: 'axis', ariaHidden: 'true' });
  axis.replaceChildren(...steps.map(({ label }) => Object.assign(document.createElement('span'), { textContent: label })),
    Object.assign(document.createElement('b'), { textContent: units }));
  frame.after(axis);
  return axis.querySelectorAll('span');
}

/** Shows a text below a frame, or none. */
function showCaption(frame, text) {
  const caption = frame.parentElement.querySelector('.caption') ?? document.createElement('p');
  Object.assign(caption, { className: 'caption quiet', textContent: text });
  frame.parentElement.append(caption);
}

/** How the picture is to be read, if it isn't the curve of a tide. */
function captionOf({ isTurnsOnly, isCurrent, events }, graph) {
  const isFlat = fitLines(partsOf({ events }).slacks, moment => graph.toDomXCoord(moment));
  const lines = isFlat ? ': the upper line before flood, the lower line before ebb.' : '.';
  return [...(isTurnsOnly ? [NO_CURVE] : []), ...(isCurrent ? [CURRENT + lines] : [])].join(' ');
}

/** Moves the reading by the arrow keys: to the next level, or with Shift to the next event. Home and End go to the ends. */
function followKeys(frame, graph, rows, report) {
  const moments = rows.map(([date]) => date.getTime()), stops = moments.filter((_, place) => rows[place][2] !== null);
  const nearest = moment => Math.max(0, moments.findIndex(other => other >= moment));
  const show = place => {
    graph.setSelection(place);
    report(moments[place]);
    const x = graph.toDomXCoord(moments[place]), { scrollLeft, clientWidth } = frame;
    if (x < scrollLeft + 20 || x > scrollLeft + clientWidth - 20) frame.scrollLeft = x - clientWidth / 2;
    frame.setAttribute('aria-valuenow', place);
    frame.setAttribute('aria-valuetext', document.getElementById('reading').textContent);
  };
  const nextOf = (place, step, isFar) => {
    if (!isFar) return place + step;
    const stop = step > 0 ? stops.find(moment => moment > moments[place]) : stops.findLast(moment => moment < moments[place]);
    return stop === undefined ? place : moments.indexOf(stop);
  };
  Object.entries({ role: 'slider', 'aria-valuemin': 0, 'aria-valuemax': rows.length - 1, 'aria-valuenow': 0, 'aria-valuetext': 'no level' })
    .forEach(([name, value]) => frame.setAttribute(name, value));
  frame.onkeydown = press => {
    const at = graph.getSelection(), here = at >= 0 ? at : nearest(Date.now());
    const place = { ArrowLeft: () => nextOf(here, -1, press.shiftKey), ArrowRight: () => nextOf(here, 1, press.shiftKey),
      Home: () => 0, End: () => moments.length - 1 }[press.key];
    if (!place || press.ctrlKey || press.altKey || press.metaKey) return;
    press.preventDefault();
    show(at < 0 && press.key.startsWith('Arrow') ? here : Math.min(Math.max(place(), 0), moments.length - 1));
  };
  frame.onblur = () => { graph.clearSelection(); report(null); };
}

// The legend would write styles into the document, which the page's own policy refuses.
if (window.Dygraph) Dygraph.PLUGINS = Dygraph.PLUGINS.filter(plugin => plugin !== Dygraph.Plugins.Legend);

/** The marks of a sill, or of both sides of a limit. */
const passesOf = ({ marks, lowMarks }) => [...marks, ...lowMarks];

/** The first moments of the days and of the day after them, and the labels of the days between these. */
function daysOf({ dates, zone }) {
  const days = dates.map(date => ({ date, start: startOfDay(date, zone) }));
  const ticks = days.flatMap(({ date, start }, index) => index + 1 === days.length ? [{ v: start }]
    : [{ v: start }, { label_v: (start + days[index + 1].start) / 2, label: dateText(date) }]);
  return { days, ticks };
}

/** Draws the point that is read, with a line over the picture's height. */
function drawReading(graph, context, [x, y], colors) {
  const { y: top, h } = graph.getArea();
  drawLine(context, [x, top], [x, top + h], { strokeStyle: colors.guide, lineWidth: 1 });
  drawPoint(context, [x, y], { color: colors.page, fill: colors.water, size: 4.5 });
}

/** The options of a graph: what it shows, and how it is drawn. */
function optionsOf(picture, { days, ticks }, { valueRange, steps }, colors) {
  const { isPaper, report } = picture;
  const plotter = ({ drawingContext, plotArea, dygraph }) => drawBefore(drawingContext, plotArea, dygraph, picture, colors);
  return {
    labels: ['moment', 'level', 'event'], colors: [colors.water, colors.water],
    dateWindow: [days[0].start, days.at(-1).start], valueRange,
    interactionModel: {}, pixelRatio: isPaper ? 3 : null, connectSeparatedPoints: true,
    gridLineColor: colors.grid, gridLineWidth: 1, axisLineColor: colors.guide,
    series: { level: { strokeWidth: 1.8 }, event: { highlightCircleSize: 0, plotter } },
    xAxisHeight: DATES,
    axes: { x: { ticker: () => ticks, axisLabelWidth: 100 }, y: { ticker: () => steps, drawAxis: false } },
    underlayCallback: (context, area, graph) => drawBehind(context, area, graph, days, picture, colors),
    drawHighlightPointCallback: (graph, name, context, x, y) => drawReading(graph, context, [x, y], colors),
    highlightCallback: (move, moment) => report(moment),
    unhighlightCallback: () => report(null),
  };
}

/** Draws the levels in a box, with labels of the events, a line at the sill if there is one, and the present moment. */
export function drawChart(box, answer) {
  const picture = { ...answer, passes: passesOf(answer) }, frame = box.parentElement;
  box.classList.toggle('paper', Boolean(picture.isPaper));
  const times = daysOf(picture), valueRange = rangeIn(box, picture, times.days);
  const steps = stepsOf(...valueRange, box.clientHeight - DATES);
  const rows = rowsOf(picture.levels, [...picture.events, ...picture.passes]);
  const texts = showLevels(frame, steps, picture.units);
  const graph = new Dygraph(box, rows, optionsOf(picture, times, { valueRange, steps }, colorsOf(box)));
  steps.forEach(({ v }, place) => {
    const y = graph.toDomYCoord(v);
    texts[place].style.top = `${y}px`;
    // A label at the upper end would be cut, and one at the lower end would cross the unit.
    texts[place].hidden = y < 7 || y > box.clientHeight - DATES - 4;
  });
  showCaption(frame, captionOf(picture, graph));
  followKeys(frame, graph, rows, picture.report);
  const now = graph.toDomXCoord(Date.now());
  frame.scrollLeft = now > 0 && now < box.clientWidth ? now - frame.clientWidth / 3 : 0;
  return graph;
}

/** Has the chart drawn again: as wide as the paper when the page is printed, and in other colours when they change. */
export function followPaper(box, draw) {
  const fit = (width, isPaper) => {
    Object.assign(box.style, { width, minWidth: width });
    draw(isPaper);
  };
  const paper = window.matchMedia('print');
  window.addEventListener('beforeprint', () => fit(PAPER, true));
  window.addEventListener('afterprint', () => fit('', false));
  // A browser that reports this change has the paper's layout by then.
  paper.addEventListener('change', ({ matches }) => fit('', matches));
  window.matchMedia('(prefers-color-scheme: dark)').addEventListener('change', () => { if (!paper.matches) draw(false); });
}
