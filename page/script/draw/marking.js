// Marks on a diagram: invisible handles, wider than what is drawn, and violations, in red with the actual and required minutes.

import { conflictsOf, detailsOf, isOutside, outsideText } from '../session/conflicts.js';
import { drawing, elided } from '../base/elements.js';
import { copiesOf, heightOf, waysOf } from './frames.js';

const MOST_BROKEN = 200, LETTER = 7.4, ROW = 13, TRIES = [0, -1, 1, -2, 2, -3, 3], MARK = '✕';
// The red mark of a train is visible above its path, but the handle of the train receives clicks there.
const UNDER = { 'pointer-events': 'none' };

export const marked = (nodes, attributes) => {
  for (const node of nodes) for (const [name, value] of Object.entries(attributes)) node.setAttribute(name, value);
  return nodes;
};

// The handle of a train between one of its events and the next.
const reachOf = (frame, train, minutes, place, width) => {
  const ends = [place, place + 1], [from, to] = ends.map(each => train.events[each]);
  const points = ends.map(each => [minutes[each], heightOf(frame, train.events[each])]);
  return marked(waysOf(frame, points, 'transparent', width), { class: 'reach', 'data-event': from, 'data-next': to });
};

// The same for some places of a train, or for all; none while something is dragged, since nothing else can be dragged then.
export const reachesOf = (frame, train, minutes, width, places = [...train.steps.keys()]) => document.body.classList.contains('dragging') ? []
  : places.flatMap(place => reachOf(frame, train, minutes, place, width));

// The ring of the chosen event, and by how much its train is moved.
export const ringAt = (frame, event, minute, shift) => copiesOf(frame, minute).flatMap(at => {
  const [x, y] = [frame.x(at), heightOf(frame, event)], ring = drawing('circle', { class: 'mark', cx: x, cy: y, r: 6 });
  return shift ? [ring, drawing('text', { class: 'end', x: x + 9, y: y + 16 }, shift)] : [ring];
});

const SIDES = { start: 0.5, middle: 0, end: -0.5 };

// The approximate place of a text, so that no label is put there.
const boxOf = text => {
  const [x, base] = ['x', 'y'].map(name => Number(text.getAttribute(name))), width = LETTER * text.textContent.length;
  return { x: x + SIDES[text.getAttribute('text-anchor') || 'start'] * width, base, width };
};

/** The labels of the visible marks, in each period.
 * @param {any} frame
 * @param {any[]} boxes
 * @param {number[]} at
 * @param {string} text
 * @param {object} more */
const labelsOf = (frame, boxes, [minute, y], text, more) => copiesOf(frame, minute).map(at => labelOf(frame, boxes, [at, y], text, more));

/** A label if no other one is in the way, and otherwise only a mark.
 * @param {any} frame
 * @param {any[]} boxes
 * @param {number[]} at
 * @param {string} text
 * @param {object} more */
const labelOf = (frame, boxes, [minute, y], text, more) => {
  const width = LETTER * text.length, middle = frame.x(minute);
  const x = Math.min(frame.right - width / 2, Math.max(frame.left + width / 2, middle));
  const bases = TRIES.map(row => Math.max(ROW, y - 6 + row * ROW));
  const isFree = base => !boxes.some(box => Math.abs(box.x - x) < (box.width + width) / 2 && Math.abs(box.base - base) < ROW);
  const base = bases.find(isFree);
  if (base === undefined) return drawing('text', { class: 'broken', x: middle, y, 'text-anchor': 'middle', ...more }, MARK);
  boxes.push({ x, base, width });
  return drawing('text', { class: 'broken', x, y: base, 'text-anchor': 'middle', ...more }, text);
};

// The minutes over which a violated activity is drawn: one that excludes little, as a headway, over the shorter way.
const drawnOver = ({ activity: { lower, upper }, had }, period) => 2 * (upper - lower) > period && 2 * had > period ? had - period : had;

// The place of a violated activity with a drawn end, at one height if the other end or the run is not drawn; null if no end is.
const pointsOf = (view, frame, conflict) => {
  const { first, last } = conflict.activity, [from, to] = [first, last].map(event => heightOf(frame, event)), start = view.times.get(first);
  if (![first, last].some(event => frame.events.has(event))) return null;
  return [[start, from || to], [start + drawnOver(conflict, frame.period), (!frame.away.has(conflict.number) && to) || from]];
};

const brokenOf = (view, frame, where, boxes) => {
  const all = conflictsOf(view).all.map(conflict => ({ conflict, points: pointsOf(view, frame, conflict) })).filter(({ points }) => points);
  const found = all.slice(0, MOST_BROKEN), steps = new Set(frame.line.trains.flatMap(train => train.steps));
  const paths = found.flatMap(({ conflict: { number }, points }) =>
    marked(waysOf(frame, points, 'var(--alarm)', 4), { class: 'broken', 'data-activity': number, ...steps.has(number) ? UNDER : {} }));
  const labels = found.flatMap(({ conflict, points: [[start, from], [end, to]] }) => {
    const text = conflict.isRun ? conflict.short : conflict.text, middle = [(start + end) / 2, (from + to) / 2];
    const made = labelsOf(frame, boxes, middle, text, { 'data-activity': conflict.number });
    for (const label of made) label.append(drawing('title', {}, detailsOf([conflict])));
    return made;
  });
  return { paths, labels, note: elided(all.length, MOST_BROKEN, `that are violated ${where}`) };
};

// The violations in a drawing: paths and rings in red, labels away from some texts, and a remark on what is left out.
export const conflictMarks = (view, frame, where, texts) => {
  const boxes = texts.map(boxOf), { paths, labels, note } = brokenOf(view, frame, where, boxes);
  for (const event of [...frame.events].filter(each => isOutside(view, each))) {
    const time = view.times.get(event), y = heightOf(frame, event);
    paths.push(...copiesOf(frame, time).map(at => drawing('circle', { class: 'outside', cx: frame.x(at), cy: y, r: 5, 'data-event': event, ...UNDER })));
    labels.push(...labelsOf(frame, boxes, [time, y], outsideText(view, event), { 'data-event': event }));
  }
  return { paths, labels, note };
};
