// The edits that turn one network into another of the same period, and one timetable into another.

import { activityEdit, edit, timeEdits, windowEdit } from './edits.js';

// The entries of some keys that are in one map and not in the other.
const missing = (from, to) => [...from.keys()].filter(key => !to.has(key));

const changed = ({ number, first, last, lower, upper, weight }, now) => [
  first === now.first && last === now.last ? null : edit.ends(number, now.first, now.last),
  lower === now.lower && upper === now.upper ? null : edit.span(number, now.lower, now.upper),
  weight === now.weight ? null : edit.weight(number, now.weight),
].filter(Boolean);

const activityEdits = (from, to) => [...to.activities.values()].flatMap(now => {
  const before = from.activities.get(now.number);
  return before ? changed(before, now) : [activityEdit(now)];
});

const windowEdits = (from, to) => [...to.windows].filter(([event, { first, length }]) => {
  const before = from.windows.get(event);
  return !before || before.first !== first || before.length !== length;
}).map(([event, { first, length }]) => windowEdit(event, first, length));

const changedTimes = (from, to, isThere) => [
  ...missing(from, to).filter(isThere).map(event => edit.untime(event)),
  ...timeEdits([...to].filter(([event, time]) => from.get(event) !== time)),
];

// The edits that turn the first into the second, each a network with its times. Every activity has both ends after each of them.
export const editsBetween = (from, to) => {
  const known = new Set(from.network.events), wanted = new Set(to.network.events), isThere = event => wanted.has(event);
  return [
    ...missing(from.network.activities, to.network.activities).map(number => edit.dropActivity(number)),
    ...to.network.events.filter(event => !known.has(event)).map(event => edit.addEvent(event)),
    ...activityEdits(from.network, to.network),
    ...from.network.events.filter(event => !isThere(event)).map(event => edit.dropEvent(event)),
    ...missing(from.network.windows, to.network.windows).filter(isThere).map(event => edit.unfix(event)),
    ...windowEdits(from.network, to.network), ...changedTimes(from.times, to.times, isThere),
  ];
};
