// A lower bound of the cost by groups of events: the sum of what each of them costs at least, since nothing costs less than 0
// between them. It is used if the program has none for the whole.

import { baseOf, componentsOf } from '../base/network.js';
import { FIRST_NODES, paced } from './pacing.js';
import { exactly, isSure } from '../base/replies.js';
import { openSession } from '../base/running.js';

const MOST_EVENTS = 200;

// Groups of events with few activities between them: the most expensive ones join events first.
const groupsOf = ({ events, activities }) => {
  const joins = [...activities.values()].sort((one, other) => other.weight - one.weight);
  return [...componentsOf(events, joins, MOST_EVENTS)];
};

// The network of some events alone.
export const partOf = ({ period, windows, activities }, group) => {
  const events = group.sort((one, other) => one - other), all = new Set(events);
  return {
    period, events, windows: new Map([...windows].filter(([event]) => all.has(event))),
    activities: new Map([...activities].filter(([, { first, last }]) => all.has(first) && all.has(last))),
  };
};

// Bounds a search. `goOn` continues with one group after another, and returns the result with the bound, or that there is no
// timetable; null if all groups are done. `close` ends it.
export const boundingOf = network => {
  const groups = groupsOf(network), open = groups.filter(group => group.length > 1 && groups.length > 1).map(group => ({ group, session: null, nodes: FIRST_NODES, least: 0n }));
  let least = 0n;
  const searchMore = job => {
    const { group, nodes } = job, from = performance.now(), session = job.session || openSession(baseOf(partOf(network, group), new Map()));
    const found = session.search(nodes, group), bound = BigInt(found.bound || 0);
    if (bound > job.least) least += bound - job.least;
    if (isSure(found)) session.close();
    else open.push({ group, session, nodes: paced(nodes, performance.now() - from, found.goesOn), least: bound > job.least ? bound : job.least });
    return found;
  };
  return {
    goOn: found => {
      if (!open.length) return null;
      const { kind } = searchMore(open.shift());
      return kind === 'infeasible' ? { kind } : { ...found, bound: exactly(String(least)) };
    },
    close: () => open.forEach(({ session }) => session && session.close()),
  };
};
