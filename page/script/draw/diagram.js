// The distance-time diagram of a line: minutes across, stations down, as far apart as the least minutes of trains between
// them. The marks along a station are the minutes at which its events can still be.

import { display } from '../session/display.js';
import { drawing, element, elided, find, renew, setAttribute, setText } from '../base/elements.js';
import { copiesOf, frameOf, gridOf, heightOf, looksOf, TURN, waysOf } from './frames.js';
import { drawLayer, isSame, makeLayer } from './layers.js';
import { conflictMarks, marked, reachesOf, ringAt } from './marking.js';
import { shiftText } from '../forms/moving.js';
import { bareClock, labelOf, runsOf } from '../session/names.js';
import { firstRuns } from './nearby.js';
import { chooseLine } from '../session/session.js';
import { sizeNow } from '../session/sizes.js';
import { stretchOf } from './stretch.js';
import { isTab } from '../session/tabs.js';
import { undrawnText } from '../base/timed.js';
import { isForward, timedPieces } from '../session/trains.js';
import { minutesHad } from '../base/viewing.js';

const TURNS = ['', 'turn', 'turnaround'], MOST_TURNS = 200, MOST_OTHERS = 2000;
// The layers among the stations, from bottom to top.
const AMONG = ['possible', 'others', 'turns', 'old', 'paths', 'broken', 'reaches'];

// The drawing on the screen.
let kept = null;

// An empty drawing. Most steps leave its `scene` unchanged.
const emptySheet = () => {
  const layers = Object.fromEntries(['grid', ...AMONG, 'ends'].map(name => [name, makeLayer()]));
  const clip = drawing('svg', {}, ...AMONG.map(name => layers[name].node)), page = drawing('svg', {}, layers.grid.node, clip, layers.ends.node);
  return { page, clip, layers, scene: null, fixed: page.childNodes.length };
};

// The places of the minutes and stations of a line, its trains that wait there, and those of other lines.
const sceneOf = (view, line, before, size) => {
  const of = [line, view.lines, display.labels, view.network.activities, view.network.period, size];
  if (before && isSame(before.of, of)) return before;
  return { of, line, frame: frameOf(line, view.network, size), turns: turnsOf(view, line), ...firstRuns(othersOf(view, line), MOST_OTHERS) };
};

// The diagram of a line, and a remark on what is left out. Trains are drawn between events with times, and possible minutes
// everywhere. Without a size it is for paper.
export const diagramOf = (view, whole, { chosen = null, size = undefined, sheet = emptySheet() } = {}) => {
  const { line, note } = stretchOf(whole, chosen), before = sheet.scene, scene = sceneOf(view, line, before, size), { page, clip } = sheet;
  sheet.scene = scene;
  if (scene !== before) {
    const looks = looksOf(scene.frame, `Distance-time diagram of ${line.name}`);
    for (const [name, value] of Object.entries(looks.page)) setAttribute(page, name, value);
    for (const [name, value] of Object.entries(looks.clip)) setAttribute(clip, name, value);
  }
  const left = drawSheet(view, sheet, chosen), [waiting, beside] = view.tensions ? [scene.turns.length, scene.runs] : [0, 0];
  return { drawn: page, note: [note, left, elided(waiting, MOST_TURNS, 'turns'), elided(beside, MOST_OTHERS, 'runs of other lines')].filter(Boolean).join(' ') };
};

// Draws the changes in a drawing, and returns a remark on what is left out.
const drawSheet = (view, { page, layers, scene, fixed }, chosen) => {
  const { line, frame, turns } = scene, { times, tensions } = view;
  drawLayer(layers.grid, [frame], () => gridOf(frame));
  drawLayer(layers.possible, [scene, view.domains, chosen], () => possible(view, frame, line, chosen));
  drawLayer(layers.turns, [scene, times, tensions], () => tensions ? turns.filter(({ number }) => tensions.has(number)).slice(0, MOST_TURNS).flatMap(each => turn(view, frame, line, each)) : []);
  drawTrains(view, layers, scene);
  const endTimes = line.trains.map(train => endsOf(train).map(event => times.get(event)));
  drawLayer(layers.ends, [scene, endTimes.join()], () => line.trains.flatMap(train => ends(view, frame, line, train)));
  const { paths, labels, note } = conflictMarks(view, frame, 'on the line', [...layers.ends.node.children]);
  renew(layers.broken.node, paths);
  renew(page, [...(chosen === null ? [] : chosenMark(view, frame, chosen)), ...labels], fixed);
  return note;
};

// The trains of the line and of others, by their minutes.
const drawTrains = (view, layers, scene) => {
  const { line, frame } = scene, isDragged = document.body.classList.contains('dragging');
  const own = line.trains.flatMap(train => timedPieces(view, train)), order = orderOf(line);
  const beside = scene.others.flatMap(({ train, places }) => timedPieces(view, train).map(piece => ({ ...piece, places: piece.train === train ? places : placesOn(order, piece.train) })));
  const [ownMinutes, minutesBeside] = [own, beside].map(trains => trains.map(({ train, minutes }) => [train.events[0], ...minutes]).join(';'));
  drawLayer(layers.others, [scene, minutesBeside, isDragged], () => beside.flatMap(each => other(frame, each)));
  const wayOf = ({ train, minutes }, ...look) => waysOf(frame, minutes.map((minute, place) => [minute, heightOf(frame, train.events[place])]), ...look);
  drawLayer(layers.old, [scene, view.before], () => !view.before ? [] : line.trains.flatMap(train => timedPieces(view.before, train)).flatMap(piece => wayOf(piece, 'var(--pale)', 1.8, '6 4')));
  drawLayer(layers.paths, [scene, ownMinutes], () => own.flatMap(each => wayOf(each, line.color, 2.6)));
  drawLayer(layers.reaches, [scene, ownMinutes, isDragged], () => own.flatMap(({ train, minutes }) => reachesOf(frame, train, minutes, 14)));
};

// The minutes at which the events of a line can still be, unless all are possible: those of trains that go down the
// drawing are below their station, the others above; arrivals are nearer to it.
const possible = (view, frame, line, chosen) => line.trains.flatMap(train => {
  const side = isForward(line, train) ? 1 : -1;
  return train.events.map(event => {
    const minutes = view.domains.get(event);
    if (minutes.length === frame.period) return null;
    const offset = side * (labelOf(event).kind === 'arrival' ? 4 : 9), y = heightOf(frame, event) + offset;
    const runs = runsOf(minutes), shifts = copiesOf({ ...frame, first: frame.first - frame.period + 1, count: frame.count + frame.period - 1 }, 0);
    const path = shifts.flatMap(shift => runs.map(([first, last]) => `M${frame.x(first + shift)} ${y}H${frame.x(last + 1 + shift)}`)).join('');
    return drawing('path', { class: event === chosen ? 'can chosen' : 'can', d: path, stroke: line.color, 'data-event': event });
  }).filter(Boolean);
});

const orderOf = line => new Map(line.stations.map((station, place) => [station, place]));

// The trains of other lines on tracks of this one, and where.
const othersOf = (view, line) => {
  const order = orderOf(line);
  const trains = view.lines.filter(({ name }) => name !== line.name).flatMap(each => each.trains);
  return trains.map(train => ({ train, places: placesOn(order, train) })).filter(({ places }) => places.length);
};

const placesOn = (order, train) => {
  const at = train.events.map(event => order.get(labelOf(event).station));
  return [...train.steps.keys()].filter(place => Math.abs(at[place] - at[place + 1]) === 1);
};

const other = (frame, { train, places, minutes }) => places.flatMap(place => {
  const dash = waysOf(frame, [place, place + 1].map(each => [minutes[each], heightOf(frame, train.events[each])]), 'var(--others)', 1.4);
  return [...dash, ...reachesOf(frame, train, minutes, 8, [place])];
});

// Trains that wait between two runs, drawn as dashes beyond the station.
const turnsOf = (view, line) => [...view.network.activities.values()].filter(each => {
  const [from, to] = [labelOf(each.first), labelOf(each.last)];
  const isTurn = from.line === line.name && to.line === line.name && from.station === to.station && from.to !== to.to;
  return isTurn && line.stations.includes(from.station) && TURNS.includes(display.labels.kinds.get(each.number) || '');
});

const turn = (view, frame, line, each) => {
  const y = frame.heights.get(labelOf(each.first).station), start = view.times.get(each.first), end = start + minutesHad(view, each.number);
  const beyond = y + (y > (frame.top + frame.bottom) / 2 ? TURN : -TURN);
  const points = [[start, y], [start, beyond], [end, beyond], [end, y]];
  return marked([...waysOf(frame, points, line.color, 1.3, '3 3'), ...waysOf(frame, points, 'transparent', 9)], { 'data-activity': each.number });
};

// The minutes at which a train begins and ends, beside the ends of its path.
const endsOf = ({ events }) => [events[0], events[events.length - 1]];

const ends = (view, frame, line, train) => endsOf(train).flatMap((event, end) => {
  const time = view.times.get(event), isFirst = end === 0;
  if (time === undefined) return [];
  const y = heightOf(frame, event), isAbove = isForward(line, train) !== isFirst, edge = 0.04 * frame.count;
  return copiesOf(frame, time).map(at => {
    const isLeft = isFirst ? at - frame.first >= edge : at - frame.first > frame.count - edge;
    const place = { x: frame.x(at) + (isLeft ? -5 : 5), y: y + (isAbove ? -5 : 14), 'text-anchor': isLeft ? 'end' : 'start' };
    return drawing('text', { class: 'end', style: `fill: ${line.color}`, 'data-event': event, ...place }, bareClock(time));
  });
});

const chosenMark = (view, frame, event) => {
  const time = view.times.get(event);
  return time === undefined || !frame.events.has(event) ? [] : ringAt(frame, event, time, shiftText(view, event));
};

const NOTE = 'Marks along a station: the minutes at which the trains of the line can still be there, below it downwards, above it '
  + 'upwards. Grey: other lines. Red: violated, with the minutes had and wanted.';

const update = view => {
  if (!isTab('diagram')) return;
  const line = view.lines.find(each => each.name === display.chosenLine) || view.lines[0], holder = find('diagram');
  find('line-of-diagram').hidden = find('alter-line').hidden = !line;
  if (!line || line.stations.length < 2) {
    setText(find('diagram-note'), 'Add a line in Tables, or open a file of labels: then the line of the chosen event is shown here.');
    holder.replaceChildren();
    return;
  }
  const select = find('line-of-diagram');
  if (select.value !== line.name) select.value = line.name;
  kept = kept || emptySheet();
  const { drawn, note } = diagramOf(view, line, { chosen: display.chosen, size: sizeNow('diagram'), sheet: kept }), missing = undrawnText(view);
  setText(find('diagram-note'), [note, NOTE, missing].filter(Boolean).join(' '));
  if (holder.firstChild !== drawn) holder.replaceChildren(drawn);
};

const build = view => {
  const options = view.lines.map(line => element('option', { value: line.name }, line.name));
  find('line-of-diagram').replaceChildren(...options);
};

export const diagramPanel = { build, update };

export const startDiagram = () => find('line-of-diagram').addEventListener('change', event => chooseLine(event.target.value));
