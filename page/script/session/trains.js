// Trains and lines, found from labels: a train is a chain of runs and dwells of one line with one destination.

import { display } from './display.js';
import { clock, labelOf } from './names.js';
import { minutesHad } from '../base/viewing.js';

// The style has this many colors of lines, others in dark mode.
const COLORS = 10;

const colorOf = place => `var(--line-${place % COLORS})`;

const isStep = ({ number, first, last }) => {
  const kind = display.labels.kinds.get(number) || '', [from, to] = [labelOf(first), labelOf(last)];
  if (!from.line || from.line !== to.line || from.to !== to.to) return false;
  if (from.kind === 'departure' && to.kind === 'arrival') return from.station !== to.station && (kind === '' || kind === 'run');
  return from.kind === 'arrival' && to.kind === 'departure' && from.station === to.station && (kind === '' || kind === 'dwell');
};

// The trains of a network, in the order of their first events.
export const trainsOf = network => {
  const following = new Map(), arrived = new Set();
  for (const each of network.activities.values()) {
    if (isStep(each) && !following.has(each.first) && !arrived.has(each.last)) {
      following.set(each.first, each);
      arrived.add(each.last);
    }
  }
  const labelled = network.events.filter(event => labelOf(event).line && labelOf(event).station);
  const begun = new Set(), trains = [];
  // A circular train has no first event; it begins at its least one, once all trains with a first event are known.
  for (const event of [...labelled.filter(each => !arrived.has(each)), ...labelled]) {
    if (begun.has(event)) continue;
    const train = trainFrom(event, following);
    train.events.forEach(each => begun.add(each));
    trains.push(train);
  }
  return trains.sort((one, other) => one.events[0] - other.events[0]);
};

const places = new WeakMap();

// The train of an event with the event's place in it.
export const trainAt = event => {
  const { trains } = display.view;
  if (!places.has(trains)) places.set(trains, new Map(trains.flatMap(train => train.events.map((each, place) => [each, { train, place }]))));
  return places.get(trains).get(event);
};

const trainFrom = (event, following) => {
  const { line, to } = labelOf(event), train = { line, to, events: [event], steps: [] };
  for (let step = following.get(event); step && step.last !== event; step = following.get(step.last)) {
    train.events.push(step.last);
    train.steps.push(step.number);
  }
  return withStops(train);
};

const withStops = train => {
  const stops = stopsOf(train);
  return { ...train, stops, stations: stops.map(stop => stop.station) };
};

// The distinction of trains with the same beginning, by their events: the minute at which each begins, or its place among them.
export const twinsOf = ({ trains, times }) => {
  const alike = new Map(), texts = new Map();
  for (const train of trains) {
    const key = JSON.stringify([train.line, train.to, train.stations[0]]);
    if (alike.has(key)) alike.get(key).push(train);
    else alike.set(key, [train]);
  }
  for (const group of [...alike.values()].filter(({ length }) => length > 1)) {
    group.forEach(({ events }, place) => events.forEach(event => texts.set(event, times.has(events[0]) ? clock(times.get(events[0])) : `no. ${place + 1}`)));
  }
  return texts;
};

// The part of a train from one of its events to before another.
export const pieceOf = (train, start, end) =>
  withStops({ ...train, events: train.events.slice(start, end), steps: train.steps.slice(start, end - 1) });

// The pieces of a train that some of its events form, each as a train.
export const piecesWhere = (train, isOfPart) => {
  const pieces = [];
  train.events.forEach((event, place) => {
    if (!isOfPart(event)) return;
    const last = pieces[pieces.length - 1];
    if (last && last.end === place) last.end = place + 1;
    else pieces.push({ start: place, end: place + 1 });
  });
  return pieces.map(({ start, end }) => pieceOf(train, start, end));
};

// The stations of a train with its arrivals and departures.
const stopsOf = train => {
  const stops = [];
  for (const event of train.events) {
    const { station, kind } = labelOf(event), before = stops[stops.length - 1];
    if (kind !== 'departure') stops.push({ station, arrival: event, departure: null });
    else if (before && before.departure === null && before.station === station) before.departure = event;
    else stops.push({ station, arrival: null, departure: event });
  }
  return stops;
};

// The lines in the order of their names, with numbers in numeric order; each with its stations in their order.
export const linesOf = trains => {
  const lines = new Map();
  for (const train of trains) {
    if (!lines.has(train.line)) lines.set(train.line, { name: train.line, trains: [] });
    lines.get(train.line).trains.push(train);
  }
  const sorted = [...lines.values()].sort((one, other) => one.name.localeCompare(other.name, 'en', { numeric: true }));
  sorted.forEach((line, place) => Object.assign(line, { place, color: colorOf(place), stations: stationsOf(line.trains) }));
  return sorted;
};

// The stations of the longest train, with those of the others inserted after a known one.
const stationsOf = trains => {
  const longest = trains.reduce((best, train) => train.stations.length > best.stations.length ? train : best);
  const order = [...new Set(longest.stations)];
  for (const train of trains) {
    const stations = [...new Set(train.stations)];
    const known = stations.filter(station => order.includes(station)).map(station => order.indexOf(station));
    if (known.length && known[0] > known[known.length - 1]) stations.reverse();
    let place = 0;
    for (const station of stations) {
      if (order.includes(station)) place = order.indexOf(station) + 1;
      else order.splice(place++, 0, station);
    }
  }
  return order;
};

export const isForward = (line, train) =>
  line.stations.indexOf(train.stations[0]) <= line.stations.indexOf(train.stations[train.stations.length - 1]);

// The minute of each event of a train, continued beyond the period; null if a time is missing.
const minutesOf = (view, train) => {
  if (!view.tensions || !train.events.every(event => view.times.has(event))) return null;
  const minutes = [view.times.get(train.events[0])];
  for (const step of train.steps) minutes.push(minutes[minutes.length - 1] + minutesHad(view, step));
  return minutes;
};

// The pieces of a train that have times, each with its minutes: the train itself if none is missing.
export const timedPieces = (view, train) => {
  const minutes = minutesOf(view, train);
  if (minutes) return [{ train, minutes }];
  return view.tensions ? piecesWhere(train, event => view.times.has(event)).map(piece => ({ train: piece, minutes: minutesOf(view, piece) })) : [];
};

// The first events of the trains that stay while others are mended.
const staying = new Set();

const firstOf = event => {
  const found = trainAt(event);
  return found ? found.train.events[0] : null;
};

export const isStaying = event => staying.has(firstOf(event));

export const stayingEvents = () => display.view.trains.filter(({ events }) => isStaying(events[0])).flatMap(({ events }) => events);

export const setStaying = (event, isKept) => staying[isKept ? 'add' : 'delete'](firstOf(event));

export const forgetStaying = () => staying.clear();
