// Queries about sets of members: spans of activities, and fixed times and windows of events. Members outside a set are left
// out of the run, and in each part that the set's activities connect and no window holds one event is held at 0: such a part
// can be shifted as a whole, so this excludes no timetable that cannot be shifted into an admitted one.

import { windowEdit } from '../base/edits.js';
import { componentsOf, rowsText } from '../base/network.js';
import { readFound } from '../base/replies.js';
import { run } from '../base/running.js';

const isBinding = (member, period) => member.of === 'event' ? member.bounds.length < period
  : member.bounds.upper - member.bounds.lower < period - 1;

// The members that exclude something: activities ascending, then events.
const membersOf = network => {
  const activities = [...network.activities.values()].map(({ number, lower, upper }) => ({ of: 'activity', number, bounds: { lower, upper } }));
  const events = [...network.windows].map(([number, bounds]) => ({ of: 'event', number, bounds }));
  return [...activities, ...events].filter(member => isBinding(member, network.period));
};

// Activities come before events, each by number.
export const byMember = (one, other) => one.of.localeCompare(other.of) || one.number - other.number;

export const memberKey = ({ of, number }) => `${of} ${number}`;

export const widened = ({ of, bounds }, count, isLater, period) => {
  if (of === 'activity') return { lower: bounds.lower - (isLater ? 0 : count), upper: bounds.upper + (isLater ? count : 0) };
  return { first: isLater ? bounds.first : (((bounds.first - count) % period) + period) % period, length: bounds.length + count };
};

const keyOf = members => JSON.stringify(members.map(({ of, number, bounds }) => [of, number, Object.values(bounds)]).sort());

// A probe of a network. `preferred` is the event that is held in preference to others in its part.
export const probeOf = network => ({ network, members: membersOf(network), preferred: null, known: new Map() });

// From now on an event is held in preference to others in its part, or none if it is null.
export const prefer = (probe, event) => { probe.preferred = event; };

// The run with only some members.
const baseOf = ({ network, preferred }, members) => {
  const { period, activities } = network, kept = members.filter(member => isBinding(member, period));
  const rows = kept.filter(({ of }) => of === 'activity').map(({ number, bounds }) => ({ ...activities.get(number), ...bounds }));
  const degrees = new Map();
  for (const row of rows) for (const event of [row.first, row.last]) degrees.set(event, (degrees.get(event) || 0) + 1);
  const windows = new Map(kept.filter(({ of, number }) => of === 'event' && degrees.has(number)).map(({ number, bounds }) => [number, bounds]));
  for (const component of componentsOf(degrees.keys(), rows)) {
    if (component.some(event => windows.has(event))) continue;
    const [most] = component.sort((one, other) => degrees.get(other) - degrees.get(one) || one - other);
    windows.set(component.includes(preferred) ? preferred : most, { first: 0, length: 1 });
  }
  return {
    period, fixed: '', times: '', activities: rowsText(rows.map(row => [row.number, row.first, row.last, row.lower, row.upper, 0])),
    setup: [...windows].map(([event, { first, length }]) => windowEdit(event, first, length).line),
  };
};

// Whether a domain is empty with only the members: then they are infeasible, and otherwise undecided.
export const byDomains = (probe, members) => {
  const [reply] = run(baseOf(probe, members), ['domains']);
  return reply.slice(1).some(line => line.endsWith(':'));
};

// The result of a search with this many nodes of only the members; the same members are not searched again.
export const bySearch = (probe, members, nodes) => {
  const key = `${nodes} ${keyOf(members)}`;
  if (!probe.known.has(key)) probe.known.set(key, searched(baseOf(probe, members), nodes));
  return probe.known.get(key);
};

// A search for which memory is too short decides nothing; what is known without it remains.
const searched = (base, nodes) => {
  try {
    const { kind } = readFound(run(base, [`try ${nodes}`])[0]);
    return { infeasible: 'infeasible', none: 'undecided' }[kind] || 'possible';
  } catch (fault) {
    if (!fault.isWanting) throw fault;
    return 'undecided';
  }
};
