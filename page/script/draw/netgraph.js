// The netgraph: stations with the minutes at which trains of each line leave and arrive. It is laid out once for a network; at
// each step only its numbers are set. A large one is laid out and drawn in slices, with only its visible tracks.

import { drawAlarms, makeAlarm } from './alarms.js';
import { beside } from './apart.js';
import { labelPlace, LETTERS, LINE_STEP, NAME, spanOfName } from './captions.js';
import { isAlarming } from '../session/conflicts.js';
import { display } from '../session/display.js';
import { drawing, find, findAll, setText } from '../base/elements.js';
import { fitMap } from './fitting.js';
import { lengthsOf } from './frames.js';
import { labelOf, oldText, shortText } from '../session/names.js';
import { nearby } from './nearby.js';
import { layOut } from './places.js';
import { redraw } from '../session/session.js';
import { spaceOf } from '../session/sizes.js';
import { atOnce, inSlices } from './slices.js';
import { angleBetween, spread } from './spreading.js';
import { minuteText } from './tables.js';
import { isTab } from '../session/tabs.js';
import { mostNumbers } from './tracks.js';

const AREA = 1020 * 640, MARGIN = 64, RATIOS = [1, 1020 / 640, 2.2], EDGE = 8, STATIONS_OF_A_PAGE = 14, RING = 11;
// The length of a track that the name of a line takes with some space, and each number at each of its ends.
const ROOM = 70, ROW = 13, SCALE = 0.56;
// With more stations it takes long.
const FEW = 40;
// The layout; its drawn numbers, alarms and tracks; functions that stop its construction, and the drawing of tracks, null if
// neither runs; whether another part became visible meanwhile; and the listener for sizes.
let graph = null, numbers = new Map(), alarms = null, sheets = new Map(), making = null, tracing = null, isMoved = false, sight = null;

// Minutes with an hour are wider.
const numberWidth = () => display.view.network.period > 60 ? 36 : 21;

// The part to be drawn, around the station of the chosen event.
const extractOf = view => {
  const about = labelOf(display.chosen).station;
  return { about, ...nearby(view.lines, about) };
};

const laidOut = function* ({ lines, network }, { about, stations, tracks, note }, ratio) {
  const radius = new Map(stations.map(station => [station, radiusOf(station, tracks)]));
  const known = stations.every(station => display.places.has(station)) ? display.places : yield* layOut(stations, lengthsOf(lines, network));
  const chosen = new Map(stations.map(station => [station, [known.get(station)[0], -known.get(station)[1]]]));
  const wanted = tracks.map(track => ({ ...track, along: ROOM + 2 * numberWidth() * mostNumbers(track.trackLines), beside: halfWidth(track) }));
  const isSmall = stations.length <= FEW, pages = stations.length / STATIONS_OF_A_PAGE, share = Math.sqrt(isSmall ? Math.min(1, pages) : pages), shape = isSmall ? ratio : RATIOS[1];
  const sides = [Math.sqrt(AREA * shape), Math.sqrt(AREA / shape)];
  const places = yield* spread(chosen, wanted, radius, sides.map(side => (side - 2 * MARGIN) * share));
  return { about, tracks, radius, note, isSmall, places };
};

// The ratio of width to height of the view that the netgraph fills.
const ratioNow = () => {
  const { width, height } = spaceOf('netgraph');
  return height ? Math.min(RATIOS[2], Math.max(RATIOS[0], width / height)) : RATIOS[1];
};

const radiusOf = (station, tracks) => {
  const most = Math.max(1, ...tracks.filter(({ one, other }) => station === one || station === other).map(({ trackLines }) => trackLines.length));
  return RING + LINE_STEP * (most - 1) / 2;
};

// How far the numbers of a track reach to each side.
const halfWidth = track => (track.trackLines.length - 1) * LINE_STEP / 2 + ROW;

// Lays out a part of the network, and draws its stations, on paper above all tracks.
const draw = function* (view, extract, isPaper = false) {
  const made = yield* laidOut(view, extract, isPaper ? RATIOS[1] : ratioNow()), labels = new Map();
  for (const station of made.places.keys()) {
    labels.set(station, labelPlace(made, station));
    yield;
  }
  graph = { ...made, box: viewBox(made, labels) };
  [numbers, alarms] = [new Map(), { trackLines: new Map(), stations: new Map(), drawn: new Set() }];
  const page = sheetOf(nameOf(view), isPaper ? graph.tracks.flatMap(trackLinesOf) : [], isPaper);
  for (const [station, label] of labels) page.append(...drawStation(station, label));
  return page;
};

const trackLinesOf = track => track.trackLines.map((trackLine, place) => drawTrackLine(track, trackLine, (place - (track.trackLines.length - 1) / 2) * LINE_STEP));

// Names are readable, and if there are many, the netgraph is scrolled.
const sheetOf = (name, children, isPaper = false) => {
  const { box } = graph, made = drawing('svg', { viewBox: box.join(' '), role: 'group', 'aria-label': name }, ...children);
  if (isPaper) Object.assign(made.style, { minWidth: `${SCALE * box[2]}px`, maxHeight: `max(46rem, ${SCALE * box[3]}px)` });
  return made;
};

const nameOf = view => `Netgraph of ${graph.places.size} stations and ${view.lines.length} lines`;

const viewBox = ({ places, radius }, labels) => {
  const rings = [0, 1].map(axis => [...places].map(([station, place]) => [-1, 1].map(side => place[axis] + side * radius.get(station))));
  const spans = [...labels].map(([station, { x, anchor }]) => spanOfName(station, x, anchor)), [xs, ys] = [[...rings[0], ...spans], rings[1]];
  const left = Math.min(...xs.map(([least]) => least)) - EDGE, right = Math.max(...xs.map(([, most]) => most)) + EDGE;
  const top = Math.min(...ys.map(([least]) => least)) - EDGE - 2 * NAME, bottom = Math.max(...ys.map(([, most]) => most)) + EDGE + 2 * NAME;
  return [left, top, right - left, bottom - top].map(Math.round);
};

const drawTrackLine = (track, trackLine, offset) => {
  const first = graph.places.get(track.one), last = graph.places.get(track.other), length = Math.hypot(last[0] - first[0], last[1] - first[1]) || 1;
  const along = [(last[0] - first[0]) / length, (last[1] - first[1]) / length];
  // In this frame the track runs from 0 to its length along the x axis, so that texts are along it.
  const isTurned = along[0] < -1e-9, sign = isTurned ? -1 : 1, turn = Math.atan2(along[1], along[0]) * 180 / Math.PI + (isTurned ? 180 : 0);
  const start = [first[0] - along[1] * offset, first[1] + along[0] * offset];
  const origin = `translate(${start[0].toFixed(1)} ${start[1].toFixed(1)}) rotate(${turn.toFixed(1)})`;
  // Not farther from its ring than leaves room for the name of the line in the middle.
  const rings = [track.one, track.other].map(station => graph.radius.get(station));
  const most = (length - rings[0] - rings[1]) / 2 - 17 - numberWidth() * mostNumbers([trackLine]);
  const begins = [track.one, track.other].map((station, end) => Math.min(clearOf(station, track, offset), rings[end] + Math.max(5, most)));
  const leaving = [...trackLine.leaving.values()].flat(), middle = sign * (length + begins[0] - begins[1]) / 2;
  const path = drawing('path', { d: `M0 0H${(sign * length).toFixed(1)}`, stroke: trackLine.line.color, 'stroke-width': 3 });
  const alarm = makeAlarm(path, { x: middle, y: -11, 'text-anchor': 'middle' }, { origin: start, turn: turn * Math.PI / 180 });
  for (const event of leaving) alarms.trackLines.set(event, alarm);
  return drawing('g', { transform: origin, 'data-event': leaving.length ? leaving[0] : null }, path,
    ...pill(middle, trackLine.line), alarm.label, ...numbersAt(trackLine, track.one, sign, sign * begins[0]),
    ...numbersAt(trackLine, track.other, -sign, sign * (length - begins[1])));
};

// How far from a station the numbers of a line begin: outside its ring, and away from other tracks.
const clearOf = (station, track, offset) => {
  let clear = Math.sqrt(Math.max(0, graph.radius.get(station) ** 2 - Math.max(0, Math.abs(offset) - ROW) ** 2));
  for (const other of graph.tracks) {
    if (other === track || (other.one !== station && other.other !== station)) continue;
    const turn = Math.abs(angleBetween(angleOf(station, track), angleOf(station, other)));
    if (turn > 0.1 && turn < Math.PI / 2) clear = Math.max(clear, (halfWidth(other) + halfWidth(track) * Math.cos(turn)) / Math.sin(turn));
  }
  return clear + 5;
};

const angleOf = (station, { one, other }) => {
  const here = graph.places.get(station), there = graph.places.get(station === one ? other : one);
  return Math.atan2(there[1] - here[1], there[0] - here[0]);
};

const pill = (x, line) => {
  const name = shortText(line.name, LETTERS / 3), width = 9 + 7.2 * name.length;
  return [drawing('rect', { x: x - width / 2, y: -8.5, width, height: 17, rx: 4, fill: line.color }),
    drawing('text', { class: 'lane', x, y: 4.2, 'text-anchor': 'middle' }, name)];
};

// The minutes of a line at one end of a track, to the right of the track in the direction of its trains.
const numbersAt = (trackLine, station, outward, x) => {
  const [leaving, arriving] = outward > 0 ? [11.5, -4] : [-4, 11.5], anchor = outward > 0 ? 'start' : 'end';
  const rows = [[trackLine.leaving.get(station), leaving, 'leaves'], [trackLine.arriving.get(station), arriving, 'arrives']];
  return rows.filter(([events]) => events)
    .map(([events, y, name]) => drawing('text', { class: `minutes ${name}`, x, y, 'text-anchor': anchor }, ...spaced(events.map(minuteOf))));
};

const spaced = nodes => nodes.flatMap((node, place) => place ? [' ', node] : [node]);

const minuteOf = event => {
  const node = drawing('tspan', { 'data-event': event });
  numbers.set(event, { node, drawn: '' });
  return node;
};

const drawStation = (station, { x, base, anchor }) => {
  const [cx, cy] = graph.places.get(station);
  const ring = drawing('circle', { class: 'ring', cx, cy, r: graph.radius.get(station) });
  const text = drawing('text', { class: 'place', x, y: base, 'text-anchor': anchor }, shortText(station, LETTERS));
  const isAbove = base < cy - graph.radius.get(station) / 2;
  const alarm = makeAlarm(ring, { x, y: base + (isAbove ? -NAME : NAME), 'text-anchor': anchor });
  alarms.stations.set(station, alarm);
  const more = { 'data-station': station, tabindex: 0, role: 'button', 'aria-label': station };
  return [drawing('g', more, drawing('title', {}, station), ring, text), alarm.label];
};

// The visible part of a large netgraph: the circle around it, in the units of the drawing.
const inSight = drawn => {
  const { left, top, right, bottom } = find('netgraph').getBoundingClientRect(), turned = drawn.getScreenCTM().inverse();
  const corners = [[Math.max(0, left), Math.max(0, top)], [Math.min(window.innerWidth, right), Math.min(window.innerHeight, bottom)]];
  const [first, last] = corners.map(([x, y]) => new DOMPoint(x, y).matrixTransform(turned));
  return { middle: [(first.x + last.x) / 2, (first.y + last.y) / 2], reach: Math.hypot(last.x - first.x, last.y - first.y) / 2 };
};

// Draws the tracks that have become visible, and removes those that are not visible any more.
const drawTracks = function* () {
  const holder = find('netgraph'), { middle, reach } = graph.isSmall ? { middle: [0, 0], reach: Infinity } : inSight(holder.firstChild);
  for (const track of graph.tracks) {
    const isIn = beside(middle, graph.places.get(track.one), graph.places.get(track.other)) - halfWidth(track) < reach;
    if (isIn === sheets.has(track)) continue;
    if (isIn) sheets.set(track, sheetOf('Trains of the netgraph', trackLinesOf(track)));
    else {
      sheets.get(track).remove();
      sheets.delete(track);
    }
    yield;
  }
  holder.append(...[...sheets.values()].filter(sheet => !sheet.isConnected));
  fitMap();
  for (const [event, { node }] of numbers) if (!node.isConnected) numbers.delete(event);
  for (const [event, { label }] of alarms.trackLines) if (!label.isConnected) alarms.trackLines.delete(event);
  drawTimes(display.view);
};

const drawTimes = (view, chosen = display.chosen) => {
  for (const [event, number] of numbers) drawNumber(view, event, number, chosen);
  drawAlarms(view, alarms);
};

const tellBusy = isBusy => find('netgraph').setAttribute('aria-busy', isBusy);

// Another part may be visible. While tracks are drawn, that waits.
const lookAround = () => {
  if (!isTab('netgraph') || !graph || making || graph.isSmall) return;
  isMoved = Boolean(tracing);
  if (isMoved) return;
  tellBusy(true);
  tracing = inSlices(drawTracks(), () => {
    tracing = null;
    tellBusy(false);
    if (isMoved) lookAround();
  });
};

// Shows the result, the part around the chosen event if the netgraph is larger than its panel.
const show = page => {
  sheets = new Map();
  find('netgraph').replaceChildren(page);
  fitMap();
  sight.observe(page);
  if (graph.isSmall) atOnce(drawTracks());
  if (isWider(find('netgraph'))) lookAt(labelOf(display.chosen).station);
};

const make = view => {
  const extract = extractOf(view), work = draw(view, extract);
  stop();
  if (extract.stations.length <= FEW) return show(atOnce(work));
  setText(find('netgraph-elided'), `${extract.note} It appears in a moment …`);
  tellBusy(true);
  making = inSlices(work, page => {
    making = null;
    show(page);
    redraw();
    lookAround();
  });
};

// Stops the construction, which is then restarted, and the drawing of tracks.
const stop = () => {
  tellBusy(false);
  if (tracing) tracing();
  if (making) making();
  [tracing, making] = [null, null];
};

const update = view => {
  if (!isTab('netgraph')) return stop();
  find('no-netgraph').hidden = view.lines.length > 0;
  if (!view.lines.length || making) return;
  const { station } = labelOf(display.chosen);
  if (!graph || (graph.note && graph.about !== station && !graph.places.has(station))) make(view);
  if (making) return;
  setText(find('netgraph-elided'), graph.note);
  drawTimes(view);
  fitMap();
};

const isWider = panel => panel.scrollWidth > panel.clientWidth;

// Moves a station to the middle of the view, which may be smaller than the netgraph.
export const lookAt = station => {
  const drawn = findAll('#netgraph [data-station]').find(each => each.dataset.station === station);
  if (!drawn) return;
  const panel = find('netgraph'), [at, of] = [drawn, panel].map(each => each.getBoundingClientRect());
  panel.scrollBy(at.left - of.left - of.width / 2, at.top - of.top - of.height / 2);
};

// The netgraph for paper, with no event chosen, and a remark on what is left out; the one on the screen stays.
export const netgraphOf = view => {
  const screen = { graph, numbers, alarms }, drawn = atOnce(draw(view, extractOf(view), true)), { note } = graph;
  drawTimes(view, null);
  ({ graph, numbers, alarms } = screen);
  return { drawn, note };
};

// A number is set if it differs from the drawn one, since there are many and a step changes few.
const drawNumber = (view, event, number, chosen) => {
  const text = minuteText(view, event), isChosen = event === chosen;
  const look = [isAlarming(view, event) ? 'alarm' : '', isChosen ? 'chosen' : ''].join(' ').trim(), old = oldText(view, event), drawn = `${text} ${look} ${old}`;
  if (number.drawn === drawn) return;
  number.drawn = drawn;
  setText(number.node, text);
  if (old) number.node.append(drawing('tspan', { class: 'old', dx: 2 }, old));
  number.node.setAttribute('class', look);
};

const build = () => {
  stop();
  graph = null;
  find('netgraph').scrollTo(0, 0);
  find('netgraph').replaceChildren();
  setText(find('netgraph-elided'), '');
};

export const netgraphPanel = { build, update };

export const startNetgraph = () => {
  document.addEventListener('scroll', lookAround, true);
  sight = new ResizeObserver(lookAround);
  sight.observe(find('netgraph'));
};
