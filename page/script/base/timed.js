// The values of a timetable in which some events have no time, on which the program does not reply.

import { exactly } from './replies.js';

// The tensions and slacks of the activities between events with times, their violations, and their cost, by docs/RULES.md.
export const ofTimed = ({ network: { activities, windows, period }, times }) => {
  const tensions = new Map(), violated = new Set(), from = (start, minute) => (((minute - start) % period) + period) % period;
  let cost = 0n;
  for (const { number, first, last, lower, upper, weight } of activities.values()) {
    if (!times.has(first) || !times.has(last)) continue;
    const slack = from(times.get(first) + lower, times.get(last));
    tensions.set(number, { tension: lower + slack, slack });
    if (slack > upper - lower) violated.add(number);
    cost += BigInt(weight) * BigInt(slack);
  }
  const outside = [...windows].filter(([event, { first, length }]) => times.has(event) && from(first, times.get(event)) >= length);
  return { tensions, violations: { activities: violated, events: new Set(outside.map(([event]) => event)) }, cost: exactly(String(cost)) };
};

// How many events have no time, in words; '' if all have one.
export const untimedText = ({ network: { events }, times }) => {
  const count = events.length - times.size;
  return count ? `${count.toLocaleString('en')} ${count === 1 ? 'event has' : 'events have'} no time` : '';
};

// The same for a drawing of trains.
export const undrawnText = view => view.missing ? `Trains are shown between events with times: ${untimedText(view)}.` : '';
