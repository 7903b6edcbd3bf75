// A new stop of a line in both directions, between two stations or beyond one of its ends.

import { display } from '../session/display.js';
import { edit } from '../base/edits.js';
import { addActivity, addEvent } from './making.js';
import { labelOf } from '../session/names.js';
import { isFirst, tie, tiedTrains } from './twins.js';
import { minutesHad } from '../base/viewing.js';

// The activities that join other trains at an end, or equal ones, and stay there.
const STAYING = ['change', 'headway', 'twin'];

// The runs of a line's trains, each with its ends, and the events after it.
const runsOf = ({ trains }) => trains.flatMap(train => train.steps.map((step, place) => ({ run: display.view.network.activities.get(step), train, after: train.events.slice(place + 1) })))
  .map(each => ({ ...each, from: labelOf(each.run.first).station, to: labelOf(each.run.last).station })).filter(({ from, to }) => from !== to);

// The pairs of stations between which its trains run, in the order of the line, each once.
const pairsOf = line => {
  const pairs = new Map();
  for (const { from, to } of runsOf(line)) {
    const pair = [from, to].sort((one, other) => line.stations.indexOf(one) - line.stations.indexOf(other));
    pairs.set(JSON.stringify(pair), pair);
  }
  return [...pairs.values()].sort(([one], [other]) => line.stations.indexOf(one) - line.stations.indexOf(other));
};

const lastOf = values => values[values.length - 1];

// Its ends, where trains begin or end.
const endsOf = ({ stations, trains }) => [...new Set([stations[0], lastOf(stations)])]
  .filter(end => trains.some(each => each.stations.length > 1 && each.stations[0] !== lastOf(each.stations) && [each.stations[0], lastOf(each.stations)].includes(end)));

// Where it can get a stop: between `one` and `other`, or beyond `one` alone.
export const stopPlaces = line => [...pairsOf(line).map(([one, other]) => ({ one, other })), ...endsOf(line).map(one => ({ one, other: null }))];

// The time of an event this many minutes later; null if it has none.
const timeFrom = (event, minutes) => {
  const { times, network: { period } } = display.view;
  return times.has(event) ? (((times.get(event) + minutes) % period) + period) % period : null;
};

// The new events of equal trains are tied like the others, by the trains' first events.
const tieAdded = (made, line, added) => {
  for (const train of line.trains.filter(each => added.has(each.events[0]) && isFirst(each))) {
    for (const { train: twin, minutes } of tiedTrains(train).slice(1)) tie(made, added.get(train.events[0]), added.get(twin.events[0]), minutes);
  }
};

// A run ends at the stop, followed by a dwell and another run. If it begins at a time, the times at the stop follow by the least
// minutes, and a train that takes longer then is later from there on. Returns the new events.
const stopIn = (made, { run, after }, spans, station) => {
  const [there, dwell, on] = spans;
  const { network: { period }, times, tensions } = display.view, { number, weight } = run, kind = display.labels.kinds.get(number);
  const takes = [there, dwell, on].reduce((sum, [least]) => sum + Number(least), 0), more = tensions.has(number) ? takes - minutesHad(display.view, number) : 0;
  const label = { ...labelOf(run.first), station }, reached = Number(there[0]);
  const arrival = addEvent(made, { ...label, kind: 'arrival' }, timeFrom(run.first, reached));
  const departure = addEvent(made, { ...label, kind: 'departure' }, timeFrom(run.first, reached + Number(dwell[0])));
  made.edits.push(edit.ends(number, run.first, arrival), edit.span(number, ...there));
  addActivity(made, [arrival, departure], dwell, weight, kind && 'dwell');
  addActivity(made, [departure, run.last], on, weight, kind);
  if (more > 0) made.times.push(...after.filter(event => times.has(event)).map(event => edit.time(event, (times.get(event) + more) % period)));
  return [arrival, departure];
};

const stopBetween = (made, line, { one, other, station, before, dwell, after }) => {
  const added = new Map();
  for (const each of runsOf(line).filter(({ from, to }) => [from, to].includes(one) && [from, to].includes(other))) {
    const [first] = each.train.events, spans = each.from === one ? [before, dwell, after] : [after, dwell, before];
    added.set(first, [...added.get(first) || [], ...stopIn(made, each, spans, station)]);
  }
  return added;
};

// A train that ends at an end of its line continues to a station, which becomes its destination; returns its new events.
const runOn = (made, { events, steps, to }, end, spans, station) => {
  const [run, dwell] = spans;
  const last = lastOf(events), { weight } = display.view.network.activities.get(lastOf(steps)), kind = display.labels.kinds.get(lastOf(steps));
  const label = { ...labelOf(last), to: to === end ? station : to }, left = Number(dwell[0]);
  for (const event of events) made.events.set(event, { ...labelOf(event), to: label.to });
  const departure = addEvent(made, { ...label, kind: 'departure' }, timeFrom(last, left));
  const arrival = addEvent(made, { ...label, station, kind: 'arrival' }, timeFrom(last, left + Number(run[0])));
  addActivity(made, [last, departure], dwell, weight, kind && 'dwell');
  addActivity(made, [departure, arrival], run, weight, kind);
  return [departure, arrival];
};

// The same for one that begins there, and now comes from the station.
const comeFrom = (made, { events: [first], steps: [step] }, spans, station) => {
  const [run, dwell] = spans, { weight } = display.view.network.activities.get(step), kind = display.labels.kinds.get(step), label = made.events.get(first), left = -Number(dwell[0]);
  const departure = addEvent(made, { ...label, station, kind: 'departure' }, timeFrom(first, left - Number(run[0])));
  const arrival = addEvent(made, { ...label, kind: 'arrival' }, timeFrom(first, left));
  addActivity(made, [departure, arrival], run, weight, kind);
  addActivity(made, [arrival, first], dwell, weight, kind && 'dwell');
  return [departure, arrival];
};

// Trains that turned at the end turn at the stop.
const stopBeyond = (made, line, { one: end, station, before: run, dwell }) => {
  const added = new Map(), ending = new Map(), beginning = new Map(), { activities } = display.view.network;
  for (const train of line.trains.filter(({ steps }) => steps.length)) {
    const { events, stations } = train, [first] = events, last = lastOf(events), spans = [run, dwell];
    if (lastOf(stations) === end) ending.set(last, runOn(made, train, end, spans, station));
    if (stations[0] === end) beginning.set(first, comeFrom(made, train, spans, station));
    added.set(first, [...ending.get(last) || [], ...beginning.get(first) || []]);
  }
  for (const { number, first, last } of activities.values()) {
    if (ending.has(first) && beginning.has(last) && !STAYING.includes(display.labels.kinds.get(number))) made.edits.push(edit.ends(number, ending.get(first)[1], beginning.get(last)[0]));
  }
  return added;
};

export const addStop = (made, line, stop) => tieAdded(made, line, (stop.other === null ? stopBeyond : stopBetween)(made, line, stop));
