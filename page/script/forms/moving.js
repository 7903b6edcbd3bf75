// Moves trains: the events of one, and of those tied to it, from its first or another on, get times that are a number of minutes
// later, in one step. Those without a time are skipped. No window stops a train: violations result, and are shown at their place.

import { isOutside, outsideText } from '../session/conflicts.js';
import { display } from '../session/display.js';
import { edit } from '../base/edits.js';
import { element, find, say } from '../base/elements.js';
import { factForm, minutesField, minutesTyped } from './fields.js';
import { beginDrag } from './handles.js';
import { eventName, labelOf, lengthText, minutesText, trainName } from '../session/names.js';
import { doByHand } from './rest.js';
import { choose, redraw, timesNow } from '../session/session.js';
import { forgetStaying, isStaying, setStaying, trainAt } from '../session/trains.js';
import { tiedTrains } from './twins.js';

// The present or last move.
let moved = null;

const stay = isKept => {
  setStaying(display.chosen, isKept);
  redraw();
};

// Minutes within half a period either way; a train that is moved by a period is where it was.
const withinPeriod = minutes => {
  const { period } = display.view.network, later = ((minutes % period) + period) % period;
  return 2 * later <= period && !(2 * later === period && minutes < 0) ? later : later - period;
};

const begun = (event, isFromHere) => {
  const { train, place } = trainAt(event), from = isFromHere ? place : 0, events = tiedTrains(train).flatMap(tied => tied.train.events.slice(from));
  moved = { train, name: trainName(train, event), from, events, minutes: 0 };
};

const lines = () => {
  const { period } = display.view.network, times = timesNow(), minutes = ((moved.minutes % period) + period) % period;
  return minutes ? moved.events.filter(event => times.has(event)).map(event => edit.time(event, (times.get(event) + minutes) % period)) : [];
};

const title = () => {
  const { train, name, from, minutes } = moved, place = from ? ` from ${labelOf(train.events[from]).station} on` : '';
  return `${name}${place} ${minutesText(Math.abs(minutes))} ${minutes < 0 ? 'earlier' : 'later'}`;
};

// By how much the train of an event is moved in the present step of a drag, as `+3`; '' if it is not.
export const shiftText = (view, event) => {
  if (!view.isTried || !view.title || !moved.events.includes(event)) return '';
  return `${moved.minutes < 0 ? '−' : '+'}${lengthText(Math.abs(moved.minutes))}`;
};

// With Shift, or with a box for touch screens, a train moves from an event on.
export const wantsFromHere = event => event.shiftKey || find('from-here').checked;

// Moves a train with a pointer, from an event on or as a whole; a minute is this many pixels wide.
export const beginMove = (start, event, width, isFromHere) => {
  begun(event, isFromHere);
  beginDrag(start, x => {
    choose(event);
    moved.minutes = withinPeriod(Math.round((x - start.clientX) / width));
    return lines();
  }, title);
};

// Moves the train of an event as one step.
export const moveTrain = (event, minutes, isFromHere) => {
  if (!trainAt(event)) return say('The labels name no train of this event.', true);
  begun(event, isFromHere);
  moved.minutes = withinPeriod(minutes);
  const made = lines();
  if (made.length) doByHand(made, title());
  else say(`${title()}: no time changes`, true);
};

// The events of the train that a step moves out of their windows; '' after any other step.
export const leftText = view => {
  if (!moved || view.title !== title()) return '';
  const left = moved.events.filter(event => isOutside(view, event)), more = left.length - 1;
  return left.length ? `✕ ${eventName(left[0])}: ${outsideText(view, left[0])}${more ? `, and ${more} more` : ''}` : '';
};

const form = () => {
  const count = minutesField({ id: 'move-by', required: true, value: 1 });
  const go = sign => count.checkValidity() && moveTrain(display.chosen, sign * minutesTyped(count.value) || 0, find('from-here').checked);
  const button = (sign, name) => element('button', { type: 'button', id: `move-${name}`, onclick: () => go(sign) }, name);
  return factForm(() => go(1), element('label', { for: 'move-by' }, 'move its train by'), count, 'minutes',
    button(-1, 'earlier'), button(1, 'later'), element('label', {}, element('input', { type: 'checkbox', id: 'from-here' }), ' from here on'),
    element('label', {}, element('input', { type: 'checkbox', id: 'train-stays', onchange: event => stay(event.target.checked) }), ' it stays where others are mended'));
};

export const movingPanel = {
  begin: forgetStaying,
  build: () => {
    if (!find('move-by')) find('move').append(form());
  },
  update: () => {
    find('move').hidden = !trainAt(display.chosen);
    find('train-stays').checked = isStaying(display.chosen);
  },
};
