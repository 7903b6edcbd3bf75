// A network as `dump` returns it, and the files and commands that describe it.

import { edit, readEdit, timeEdits, windowEdit } from './edits.js';

// The addition of an edit in a script: an event, a window or an activity, by its number.
const ADDED = {
  addEvent: ([number]) => ({ to: 'events', number }),
  fix: ([number, first]) => ({ to: 'windows', number, value: { first, length: 1 } }),
  window: ([number, first, length]) => ({ to: 'windows', number, value: { first, length } }),
  addActivity: ([number, first, last, lower, upper, weight]) => ({ to: 'activities', number, value: { number, first, last, lower, upper, weight } }),
};
const addedBy = ({ kind, numbers }) => ADDED[kind](numbers);

// The network of a reply to `dump`. Networks of the same shape have the same events and activities, with the same ends.
export const readNetwork = reply => {
  const network = { period: Number(reply[0].split(' ')[2]), events: [], windows: new Map(), activities: new Map(), shape: {} };
  for (const { to, number, value } of reply.slice(1).map(readEdit).map(addedBy)) {
    if (to === 'events') network.events.push(number);
    else network[to].set(number, value);
  }
  return network;
};

// The components into which joined events divide all events, split if one has more than the given number.
export const componentsOf = (events, joins, most = Infinity) => {
  const components = new Map([...events].map(event => [event, [event]]));
  for (const { first, last } of joins) {
    let [larger, smaller] = [components.get(first), components.get(last)];
    if (larger === smaller || larger.length + smaller.length > most) continue;
    if (larger.length < smaller.length) [larger, smaller] = [smaller, larger];
    for (const event of smaller) {
      larger.push(event);
      components.set(event, larger);
    }
  }
  return new Set(components.values());
};

// The events that activities name.
const namedEvents = network => {
  const named = new Set();
  for (const each of network.activities.values()) named.add(each.first).add(each.last);
  return named;
};

export const rowsText = rows => rows.map(row => row.join('; ') + '\n').join('');

// The rows of the files of a saved folder, without headers: the program reads each.
export const rowsOf = (network, times) => {
  const named = namedEvents(network), fixed = [], windows = [];
  for (const [event, { first, length }] of network.windows) {
    if (length === 1 && named.has(event)) fixed.push([event, first]);
    else windows.push([event, first, length]);
  }
  return {
    activities: [...network.activities.values()].map(each => [each.number, each.first, each.last, each.lower, each.upper, each.weight]),
    fixed, windows,
    events: network.events.filter(event => !named.has(event)).map(event => [event]),
    times: [...times],
  };
};

// The first lines of a run that has exactly this network and these times.
export const baseOf = (network, times) => {
  const rows = rowsOf(network, times), alone = new Set(rows.events.map(([event]) => event));
  return {
    period: network.period,
    activities: rowsText(rows.activities),
    fixed: rowsText(rows.fixed),
    times: rowsText(rows.times),
    setup: [
      ...rows.events.map(([event]) => edit.addEvent(event)),
      ...rows.windows.map(([event, first, length]) => windowEdit(event, first, length)),
      ...timeEdits(rows.times.filter(([event]) => alone.has(event))),
    ].map(({ line }) => line),
  };
};
