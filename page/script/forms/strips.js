// Input on the strips of events: drags, clicks and keys.

import { addHere } from './adding.js';
import { isOutside } from '../session/conflicts.js';
import { display } from '../session/display.js';
import { edit, windowEdit } from '../base/edits.js';
import { find } from '../base/elements.js';
import { eventBeside, rowAt, showRow } from './events.js';
import { beginDrag, isFinger, minutesOfKey, moveOf, unitAt } from './handles.js';
import { beginMove, moveTrain, wantsFromHere } from './moving.js';
import { doByHand } from './rest.js';
import { choose, doStep } from '../session/session.js';
import { showActivity } from './spans.js';
import { trainAt } from '../session/trains.js';
import { unfold } from './unfolding.js';

const modulo = (value, period) => ((value % period) + period) % period;

// The line that moves an end of a window to a minute; the other end stays.
const endLine = (event, { first, length }, grip, minute, period) => {
  const last = first + length - 1;
  const count = grip === 'first' ? modulo(last - minute, period) + 1 : modulo(minute - first, period) + 1;
  return windowEdit(event, grip === 'first' ? minute : first, count);
};

// The line of a drag that began on a strip, for each minute under the pointer.
const lineOf = (row, target, start) => {
  const { event } = row, { period, windows } = display.view.network, window = windows.get(event), grip = target.dataset.grip;
  if (grip === 'now') return minute => edit.time(event, modulo(minute, period));
  if (grip) return minute => endLine(event, window, grip, modulo(grip === 'last' ? minute - 1 : minute, period), period);
  const isWithin = window && window.length > 1 && modulo(start - window.first, period) < window.length;
  if (isWithin) return minute => windowEdit(event, modulo(window.first + minute - start, period), window.length);
  return minute => edit.fix(event, Math.min(period - 1, Math.max(0, minute)));
};

// An end of a frame is between two minutes, and is dragged beside them: by how much a pointer is off the later one.
const edgeShift = ({ strip }, { dataset }, x, period) => {
  const { left, width } = strip.getBoundingClientRect();
  return left + width * (Number(dataset.at) + 0.5) / period - x;
};

const begin = event => {
  const row = rowAt(event.target);
  if (!row || event.button !== 0) return;
  const isTouch = isFinger(event);
  if (!isTouch) choose(row.event);
  if (!row.strip.contains(event.target)) return isTouch || row.strip.focus({ preventScroll: true });
  const { period } = display.view.network, handle = event.target.closest('[data-grip]') || row.strip;
  const shift = handle.dataset.at === undefined ? 0 : edgeShift(row, handle, event.clientX, period);
  const minuteAt = x => unitAt(row.strip, x + shift, 0, period), line = lineOf(row, handle, minuteAt(event.clientX));
  if (!isTouch) {
    handle.focus({ preventScroll: true });
    event.preventDefault();
  }
  const isTrain = handle.dataset.grip === 'now' && (event.shiftKey || event.ctrlKey || event.metaKey) && trainAt(row.event);
  if (isTrain) return beginMove(event, row.event, row.strip.clientWidth / period, wantsFromHere(event));
  beginDrag(event, x => {
    choose(row.event);
    return [line(minuteAt(x))];
  });
};

// Moves the window of an event by a key on its strip.
const movedLine = (event, move, isLength) => {
  const { period, windows } = display.view.network, window = windows.get(event);
  if (!window) {
    const [first = 0] = display.view.domains.get(event), time = display.view.times.get(event);
    return edit.fix(event, time === undefined ? first : time);
  }
  if (isLength) return windowEdit(event, window.first, Math.min(period, Math.max(1, window.length + move)));
  return windowEdit(event, modulo(window.first + move, period), window.length);
};

const gripLine = (event, grip, move) => {
  const { period, windows } = display.view.network;
  if (grip === 'now') return edit.time(event, modulo(display.view.times.get(event) + move, period));
  const window = windows.get(event), end = grip === 'first' ? window.first : window.first + window.length - 1;
  return endLine(event, window, grip, modulo(end + move, period), period);
};

// Whether a key moves the train of a row: with Ctrl or Alt, and on the diamond with Shift.
const isOfTrain = (event, grip) => !event.metaKey && (event.ctrlKey || event.altKey || (grip === 'now' && event.shiftKey));

const typed = event => {
  const row = rowAt(event.target), move = moveOf(event);
  if (!row) return;
  const { grip } = event.target.dataset;
  if (isOfTrain(event, grip) && minutesOfKey(event)) moveTrain(row.event, minutesOfKey(event), wantsFromHere(event));
  else if (move) doByHand([grip ? gripLine(row.event, grip, move) : movedLine(row.event, move, event.shiftKey)]);
  else if (event.key === 'ArrowUp') showRow(eventBeside(row.event, -1));
  else if (event.key === 'ArrowDown') showRow(eventBeside(row.event, 1));
  else if (event.key === '+') addHere();
  else if (event.key === 'Delete' || event.key === 'Backspace') letGo(row.event, grip === 'now');
  else return;
  event.preventDefault();
};

// Removes the window of an event, or its time.
export const letGo = (event, isTime) => {
  if (isTime ? display.view.times.has(event) : display.view.network.windows.has(event)) doStep([isTime ? edit.untime(event) : edit.unfix(event)]);
};

// A diamond within a frame hides the meaning of a click there.
const isHeldThere = event => display.view.network.windows.has(event) && !isOutside(display.view, event);

export const startStrips = () => {
  const panel = find('rows');
  panel.addEventListener('pointerdown', begin);
  panel.addEventListener('keydown', typed);
  panel.addEventListener('click', event => {
    const row = rowAt(event.target), broken = event.target.closest('[data-conflict]');
    unfold();
    if (broken) showActivity(Number(broken.dataset.conflict), row.event);
    else if (row) choose(row.event);
  });
  panel.addEventListener('dblclick', event => {
    const row = rowAt(event.target), isTime = event.target.dataset.grip === 'now';
    if (row && row.strip.contains(event.target)) letGo(row.event, isTime && !isHeldThere(row.event));
  });
};
