// A step that adds or drops events and activities together with their names.

import { display } from '../session/display.js';
import { edit, windowEdit } from '../base/edits.js';
import { find } from '../base/elements.js';
import { doStep } from '../session/session.js';

// A number above all that are used.
const freeNumber = (...taken) => taken.reduce((most, keys) => [...keys].reduce((one, other) => Math.max(one, other), most), 0) + 1;

// An empty step: the commands, those of times, which come last, the names, and the next numbers.
export const beginMade = () => {
  const { network } = display.view, { events, kinds } = display.labels;
  return { edits: [], times: [], events: new Map(events), kinds: new Map(kinds),
    event: freeNumber(network.events, events.keys()), activity: freeNumber(network.activities.keys(), kinds.keys()) };
};

// Adds an event with its label, and with its time if it has one, which may be beyond the period.
export const addEvent = (made, label, time = null) => {
  made.edits.push(edit.addEvent(made.event));
  made.events.set(made.event, label);
  if (time !== null) made.times.push(edit.time(made.event, time % display.view.network.period));
  return made.event++;
};

export const addActivity = (made, ends, span, weight, kind) => {
  made.edits.push(edit.addActivity(made.activity, ...ends, ...span, weight));
  if (kind) made.kinds.set(made.activity, kind);
  made.activity += 1;
};

const activitiesAt = events => [...display.view.network.activities.values()].filter(each => events.has(each.first) || events.has(each.last));

export const dropEvents = (made, events) => {
  for (const { number } of activitiesAt(new Set(events))) {
    made.edits.push(edit.dropActivity(number));
    made.kinds.delete(number);
  }
  for (const event of events) {
    made.edits.push(edit.dropEvent(event));
    made.events.delete(event);
  }
};

// Copies some events, this many minutes later, with the activities between them and the headways to others; `line` is the name of
// their line. Returns the new events in the same order.
export const copyEvents = (made, events, minutes, line = null) => {
  const { network: { period, windows }, times } = display.view, copies = new Map();
  for (const event of events) {
    const label = display.labels.events.get(event), window = windows.get(event);
    const copy = addEvent(made, { ...label, line: line || label.line }, times.has(event) ? times.get(event) + minutes : null);
    if (window) made.edits.push(windowEdit(copy, (window.first + minutes) % period, window.length));
    copies.set(event, copy);
  }
  for (const { number, first, last, lower, upper, weight } of activitiesAt(copies)) {
    const kind = display.labels.kinds.get(number), isInner = copies.has(first) && copies.has(last);
    if (isInner || kind === 'headway') addActivity(made, [first, last].map(event => copies.get(event) || event), [lower, upper], weight, kind);
  }
  return [...copies.values()];
};

// Does it as one step. Raises Error if the program refuses a part of it, and then nothing has changed.
export const doMade = ({ edits, times, events, kinds }, title = '') => {
  if (!doStep([...edits, ...times], { title, labels: { ...display.labels, events, kinds } })) throw new Error(find('said').textContent);
};
