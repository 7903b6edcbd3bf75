// The nearest timetable to given times: of those that meet everything, one whose times move by the fewest minutes in all, round
// the period either way, and of those one of least cost. A session of its own searches for it as an ordinary problem: beside a
// clock at 0, each event that may move has another one that comes after both the event and its given time, as soon as possible;
// the minutes from both to it are those by which the event moves.

import { partOf } from './bounding.js';
import { baseOf, componentsOf } from '../base/network.js';
import { isSure } from '../base/replies.js';
import { openSession } from '../base/running.js';
import { ofTimed } from '../base/timed.js';

// A minute of a move costs more than everything else together, as far as weights allow; and the longest search, in milliseconds.
const MOST_WEIGHT = 1e9, MOST_TIME = 30000, FIRST_NODES = 1000, STEP = 250;

const weightOf = ({ activities, period }) =>
  [...activities.values()].reduce((sum, { lower, upper, weight }) => Math.min(MOST_WEIGHT, sum + weight * Math.min(upper - lower, period - 1)), 1);

// The events of the components that lack a time or violate something: in the others nothing has to move.
const concerned = (network, times) => {
  const { events, activities } = network, { violations } = ofTimed({ network, times });
  const isUnmet = new Set([...violations.events, ...[...violations.activities].map(number => activities.get(number).first), ...events.filter(event => !times.has(event))]);
  return [...componentsOf(events, activities.values())].filter(component => component.some(event => isUnmet.has(event))).flat();
};

// The network in which events have the numbers of their places, with the cost of the moves; `most` is the greatest move of an event.
const withMoves = (network, times, { held, most }) => {
  const { period, events } = network, count = events.length, numbers = new Map(events.map((event, place) => [event, place + 1]));
  const clock = 2 * count + 1, reach = Math.min(most === null ? period : most, Math.floor(period / 2)), weight = weightOf(network);
  const made = [...network.activities.values()].map(each => ({ ...each, first: numbers.get(each.first), last: numbers.get(each.last) }));
  const windows = new Map([...network.windows].map(([event, window]) => [numbers.get(event), window])).set(clock, { first: 0, length: 1 });
  for (const [event, number] of numbers) {
    const time = times.get(event), beside = count + number;
    if (time === undefined) continue;
    if (held.has(event)) windows.set(number, { first: time, length: 1 });
    else made.push({ first: number, last: beside, lower: 0, upper: reach, weight }, { first: clock, last: beside, lower: time, upper: time + reach, weight });
  }
  const activities = new Map(made.map((each, place) => [place + 1, { ...each, number: place + 1 }]));
  return { period, events: [...Array(clock).keys()].map(place => place + 1), windows, activities };
};

// The result of a search of it, in terms of the network, in which all other events stay.
const nearOf = (found, { events }, times) =>
  ({ kind: found.kind, times: found.times ? new Map([...times, ...events.map((event, place) => [event, found.times.get(place + 1)])]) : null });

// An event that has to leave its window is reported by its window.
export const heldElsewhere = ({ windows, period }, times, held) => [...held].find(event => {
  const window = windows.get(event);
  return window && (times.get(event) - window.first + period) % period >= window.length;
});

const search = async (session, { network, times, events }, { tell, isLeft, hear }) => {
  const until = performance.now() + MOST_TIME;
  for (let nodes = FIRST_NODES; ;) {
    const from = performance.now(), found = session.search(nodes, events), now = performance.now(), isDone = isSure(found) || now > until;
    tell({ near: nearOf(found, network, times), isDone });
    if (isDone) return;
    if (now - from < STEP) nodes *= 2;
    await hear();
    if (isLeft()) return;
  }
};

// Reports the nearest known timetable, until none can be nearer, or another task arrives. Some events are held in place.
export const tellNearest = async (network, asked, tell, { isLeft, hear }) => {
  const times = new Map(asked.times), held = new Set(asked.held.filter(event => times.has(event))), event = heldElsewhere(network, times, held);
  if (event !== undefined) return tell({ near: { kind: 'outside', event }, isDone: true });
  const part = concerned(network, times);
  if (!part.length) return tell({ near: { kind: 'optimum', times }, isDone: true });
  const moving = partOf(network, part), wide = withMoves(moving, times, { held, most: asked.most }), session = openSession(baseOf(wide, new Map()));
  try {
    await search(session, { network: moving, times, events: wide.events }, { tell, isLeft, hear });
  } finally {
    session.close();
  }
  return null;
};
