// A station's board: its arrivals and departures around a clock face and as a list, and its connections as a matrix.

import { isAlarming } from '../session/conflicts.js';
import { connectionsOf, takesText } from './connections.js';
import { drawing, element, elided, rowOf, tableOf } from '../base/elements.js';
import { bareClock, clock, labelOf, shortText, spanText, stepOf, trainName } from '../session/names.js';
import { minuteText } from './tables.js';
import { trainAt } from '../session/trains.js';

const WIDE = 420, HIGH = 320, RING = 102, ROW = 17, LEVELS = 3, APART = 36, TICK = 6, MOST_ROWS = 200, MOST_CELLS = 24;

const isArrival = event => labelOf(event).kind === 'arrival';

// The events at a station, by their times; those without one are last.
const eventsAt = (view, station) => {
  const at = event => view.times.has(event) ? view.times.get(event) : Infinity;
  return view.network.events.filter(event => labelOf(event).station === station).sort((one, other) => at(one) - at(other) || one - other);
};

const colorOf = ({ lines }, event) => {
  const line = lines.find(({ name }) => name === labelOf(event).line);
  return line ? line.color : 'var(--ink)';
};

const look = (view, event) => ({ class: isAlarming(view, event) ? 'alarm' : null, 'data-event': event });

// The place of something on the face, at a distance from its middle.
const placeOf = (period, minute, radius) => {
  const turn = 2 * Math.PI * minute / period;
  return { x: Number((Math.sin(turn) * radius).toFixed(1)), y: Number((-Math.cos(turn) * radius).toFixed(1)) };
};

// A train on the face, moved out or in until no other one is near; to the left and right its text is beside the ring, not on it.
const handOf = (view, event, taken) => {
  const { period } = view.network, time = view.times.get(event), side = isArrival(event) ? -1 : 1;
  const places = [...Array(LEVELS).keys()].map(level => placeOf(period, time, RING + side * ROW * (1 + level * 0.9)));
  const isFree = ({ x, y }) => taken.every(other => Math.abs(other.x - x) > APART || Math.abs(other.y - y) > ROW * 0.7), at = places.find(isFree) || places[0];
  taken.push(at);
  const anchor = Math.abs(at.x) < RING / 3 ? 'middle' : side * at.x > 0 ? 'start' : 'end';
  const [from, to] = [placeOf(period, time, RING), placeOf(period, time, RING + side * TICK)], color = colorOf(view, event);
  return drawing('g', look(view, event), drawing('title', {}, `${trainName(labelOf(event))} ${clock(time)}`),
    drawing('path', { d: `M${from.x} ${from.y}L${to.x} ${to.y}`, stroke: color, 'stroke-width': 3 }),
    drawing('text', { class: 'end', style: `fill: ${color}`, x: at.x, y: at.y + 4, 'text-anchor': anchor }, `${shortText(labelOf(event).line, 5)} ${bareClock(time)}`));
};

const faceOf = (view, station, events) => {
  const { period } = view.network, step = stepOf(period), marks = [], taken = [];
  for (let minute = 0; minute < period; minute += step) {
    const [one, other] = [RING - 3, RING + 3].map(radius => placeOf(period, minute, radius));
    marks.push(drawing('path', { class: 'station', d: `M${one.x} ${one.y}L${other.x} ${other.y}` }));
  }
  const middle = ['within: arrivals', 'outside: departures'].map((text, place) => drawing('text', { class: 'axis', y: 16 * place, 'text-anchor': 'middle' }, text));
  const timed = events.filter(event => view.times.has(event)).slice(0, MOST_ROWS);
  return drawing('svg', { class: 'face', viewBox: `${-WIDE / 2} ${-HIGH / 2} ${WIDE} ${HIGH}`, role: 'img', 'aria-label': `Clock face of ${station}` },
    drawing('circle', { class: 'ring', r: RING }), ...marks, ...middle, ...timed.map(event => handOf(view, event, taken)));
};

// The previous or the next station of a train.
const besideOf = event => {
  const { train, place } = trainAt(event) || { train: { events: [] }, place: 0 };
  return labelOf(train.events[place + (isArrival(event) ? -1 : 1)]).station;
};

const listOf = (view, events) => tableOf('times', ['', '', 'train', 'from, or next'], events.slice(0, MOST_ROWS).map(event => rowOf(minuteText(view, event),
  [isArrival(event) ? 'arr.' : 'dep.', trainName(labelOf(event)), besideOf(event)], look(view, event))));

// The minutes of a connection with those that are allowed, or only those between two trains.
const cellOf = (view, arrival, departure, found) => {
  const each = found.find(({ first, last }) => first === arrival && last === departure);
  if (each) {
    const { text, isViolated } = takesText(view, each);
    return element('td', { class: isViolated ? 'alarm' : 'wanted', 'data-activity': each.number }, `${text} of ${spanText(each.lower, each.upper)}`);
  }
  const [from, to] = [arrival, departure].map(event => view.times.get(event)), { period } = view.network;
  return element('td', { class: 'quiet' }, from === undefined || to === undefined || labelOf(arrival).line === labelOf(departure).line ? '' : (to - from + period) % period);
};

const matrixOf = (view, station, events) => {
  const found = connectionsOf(view).filter(({ first }) => labelOf(first).station === station), ends = [true, false].map(isFirst => events.filter(event => isArrival(event) === isFirst));
  const [rows, columns] = ends.map(each => each.slice(0, MOST_CELLS)), nameOf = event => `${trainName(labelOf(event))} ${minuteText(view, event)}`;
  if (!rows.length || !columns.length) return [];
  const note = elided(Math.max(...ends.map(({ length }) => length)), MOST_CELLS, 'arrivals and departures');
  return [element('h3', {}, 'Connections: minutes had of those wanted'), note && element('p', {}, note),
    tableOf('times', ['from ↓ into →', ...columns.map(nameOf)], rows.map(from => rowOf(nameOf(from), columns.map(to => cellOf(view, from, to, found)))))];
};

// The board of a station, on the screen and on paper.
export const boardOf = (view, station) => {
  const events = eventsAt(view, station);
  return element('section', { class: 'board', 'data-of': station }, element('h2', {}, station), element('div', { class: 'rounds' }, faceOf(view, station, events),
    element('div', {}, listOf(view, events), elided(events.length, MOST_ROWS, 'arrivals and departures')), element('div', {}, ...matrixOf(view, station, events))));
};
