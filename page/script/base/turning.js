// Shifts a timetable to agree with another one: a component of the network in which nothing is held may be shifted as a whole, at
// the same cost. So adopting a timetable moves no more of the one shown than necessary.

import { componentsOf } from './network.js';

// The shift by which most events of a component agree with the times shown; of several the smallest, either way.
const turnOf = (component, times, before, period) => {
  const votes = new Map();
  for (const event of component) {
    if (!before.has(event)) continue;
    const later = (before.get(event) - times.get(event) + period) % period;
    votes.set(later, (votes.get(later) || 0) + 1);
  }
  const far = turn => Math.min(turn, period - turn);
  return [...votes].reduce((best, each) => each[1] > best[1] || (each[1] === best[1] && far(each[0]) < far(best[0])) ? each : best, [0, 0])[0];
};

// The components in which nothing is held and whose times are not as shown, each with the minutes that shift it to agree.
export const turnsOf = ({ events, activities, windows, period }, times, before) => [...componentsOf(events, activities.values())].flatMap(component => {
  const timed = component.filter(event => times.has(event)).sort((one, other) => one - other);
  const turn = component.some(event => windows.has(event)) ? 0 : turnOf(timed, times, before, period);
  return turn ? [{ events: timed, turn }] : [];
});

// Times of all events, shifted component by component to agree with those shown.
export const turned = (times, { network, times: before }) => {
  const made = new Map(times);
  for (const { events, turn } of turnsOf(network, times, before)) for (const event of events) made.set(event, (times.get(event) + turn) % network.period);
  return made;
};
