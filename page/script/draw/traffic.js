// The diagram of the corridor: all trains of all lines on its stations, each in its line's color, and after it its headway as a
// band.

import { bandsOf, keptFree } from './bands.js';
import { corridor } from './corridor.js';
import { display } from '../session/display.js';
import { drawing, find, renew, setText } from '../base/elements.js';
import { copiesOf, frameOf, heightOf, pathsOf, sheetOf } from './frames.js';
import { conflictMarks, reachesOf, ringAt } from './marking.js';
import { shiftText } from '../forms/moving.js';
import { clock, labelOf, shortText, trainName } from '../session/names.js';
import { AS_LONG } from './routes.js';
import { sizeNow } from '../session/sizes.js';
import { piecesOf, stretchOf } from './stretch.js';
import { isTab } from '../session/tabs.js';
import { undrawnText } from '../base/timed.js';
import { pieceOf, timedPieces } from '../session/trains.js';

const NOTE = 'A band after a train: the minutes that its headways keep free. Red: violated, with the minutes had and wanted.', REACH = 12;

// The corridor as a line, whose trains are the pieces of all trains on it.
const trafficOf = ({ lines }, stations) => {
  const known = new Set(stations);
  const trains = lines.flatMap(line => line.trains.flatMap(train => piecesOf(train, known).map(piece => ({ ...piece, color: line.color }))));
  return { name: 'the corridor', stations, trains };
};

// A run follows the corridor to a neighbour, or past stations if about as many minutes are between them.
const isAlong = (frame, line, events, { lower }) => {
  const [one, other] = events.map(event => line.stations.indexOf(labelOf(event).station));
  return Math.abs(one - other) < 2 || Math.abs(frame.reached[one] - frame.reached[other]) <= AS_LONG * lower;
};

// The steps of a train that leave the corridor.
const leavingOf = (view, frame, line, train) =>
  train.steps.filter((step, place) => !isAlong(frame, line, train.events.slice(place, place + 2), view.network.activities.get(step)));

// A train without the steps in `away`, as one or more trains.
const partsAlong = ({ away }, train) => {
  const starts = [0, ...train.steps.flatMap((step, place) => away.has(step) ? [place + 1] : [])];
  return starts.map((start, place) => pieceOf(train, start, starts[place + 1] || train.events.length));
};

// The events of a train with their minutes and heights.
const stopsOf = (frame, { train, minutes }) => train.events.map((event, place) => ({ event, minute: minutes[place], y: heightOf(frame, event) }));

const mod = (minute, period) => ((minute % period) + period) % period;

// A train: its path, wider handles along it, and its name on its longest run.
const drawTrain = (frame, { train, stops }, count) => {
  const d = pathsOf(frame, stops.map(({ minute, y }) => [minute, y])).join(''), minutes = stops.map(({ minute }) => minute);
  const title = drawing('title', {}, `${trainName(train)}: ${train.stations[0]} ${clock(mod(stops[0].minute, frame.period))}`);
  const look = { class: train.events.includes(display.chosen) ? 'train chosen' : 'train' }, path = drawing('path', { class: 'way', d, stroke: train.color });
  return drawing('g', look, title, path, ...reachesOf(frame, train, minutes, REACH), ...nameOf(frame, train, stops, PARTS[count % PARTS.length]));
};

// Successive trains have their names on different parts of their runs, since they may be on the same path.
const PARTS = [0.5, 0.3, 0.7];

const nameOf = (frame, train, stops, share) => {
  const runs = stops.slice(1).map((end, place) => [stops[place], end]).filter(([start, end]) => start.y !== end.y);
  if (!runs.length) return [];
  const high = ([start, end]) => Math.abs(end.y - start.y), [start, end] = runs.reduce((best, run) => high(run) > high(best) ? run : best);
  return copiesOf(frame, start.minute + share * (end.minute - start.minute)).map(minute => {
    const isLate = minute - frame.first > 0.9 * frame.count;
    const place = { x: frame.x(minute) + (isLate ? -5 : 5), y: start.y + share * (end.y - start.y) + (end.y > start.y === isLate ? 9 : -2) };
    const look = { class: 'end', style: `fill: ${train.color}`, 'text-anchor': isLate ? 'end' : 'start' };
    return drawing('text', { ...look, ...place }, shortText(train.line, 10));
  });
};

const chosenMark = (view, frame, stops) => {
  const stop = stops.find(({ event }) => event === display.chosen);
  return stop ? ringAt(frame, stop.event, stop.minute, shiftText(view, stop.event)) : [];
};

// The diagram, and a remark on what is left out.
const diagramOf = (view, line) => {
  const whole = frameOf(line, view.network, sizeNow('corridor')), away = new Set(line.trains.flatMap(train => leavingOf(view, whole, line, train)));
  const frame = { ...whole, away }, { page, clip } = sheetOf(frame, `Distance-time diagram of the corridor ${line.stations.join(', ')}`);
  const pieces = line.trains.flatMap(train => partsAlong(frame, train)), free = keptFree(view.network);
  const trains = pieces.flatMap(train => timedPieces(view, train)).map(piece => ({ train: piece.train, stops: stopsOf(frame, piece) }));
  clip.append(...trains.flatMap(({ train, stops }) => bandsOf(frame, train, stops, free)));
  const drawn = trains.map((each, count) => drawTrain(frame, each, count)), names = drawn.flatMap(each => [...each.querySelectorAll('text.end')]);
  const { paths, labels, note } = conflictMarks(view, frame, 'in the corridor', names);
  clip.append(...drawn, ...paths);
  page.append(...trains.flatMap(({ stops }) => chosenMark(view, frame, stops)), ...labels);
  return { drawn: page, left: note };
};

const notesOf = (view, ...notes) => {
  const { gaps } = corridor, none = gaps.map(([one, other]) => `No way leads on from ${one} to ${other}.`);
  return [...notes, ...none, NOTE, undrawnText(view)].filter(Boolean).join(' ');
};

const update = view => {
  if (!isTab('corridor')) return;
  const { stations } = corridor, holder = find('corridor'), isDrawn = stations.length > 1;
  const { line, note } = isDrawn ? stretchOf(trafficOf(view, stations), display.chosen) : { line: null, note: '' };
  const wanted = view.lines.length ? 'Two stations or more make a corridor: type them here, or click them on the netgraph.'
    : 'Add a line in Tables, or open a file of labels: then a corridor is shown here.';
  const { drawn, left } = isDrawn ? diagramOf(view, line) : { drawn: '', left: '' };
  setText(find('corridor-note'), isDrawn ? notesOf(view, note, left) : wanted);
  renew(holder, drawn ? [drawn] : []);
};

export const trafficPanel = { update };
