// Drags, by a pointer or by keys. A drag shows the effect of each of its lines, and its last line is one step.

import { element, say, setAttribute } from '../base/elements.js';
import { doByHand, leaveHand, showHand } from './rest.js';
import { refresh } from '../session/session.js';

// A pointer must move this many pixels before it drags, so that a click changes nothing.
const LEAST_MOVE = 3;

// The unit of a track below a horizontal place of the screen: `least` at its left end, `count` units wide.
export const unitAt = (track, x, least, count) => {
  const { left, width } = track.getBoundingClientRect();
  return least + Math.floor((x - left) / (width || 1) * count);
};

// Follows a pressed pointer; `linesAt` returns the lines for a horizontal place, none if nothing changes, and `titleOf`
// their meaning in words.
export const beginDrag = (start, linesAt, titleOf = () => '') => {
  let last = null, frame = 0, x = start.clientX, isMoved = false;
  const look = () => {
    frame = 0;
    const lines = linesAt(x);
    if (lines.join() === (last || []).join()) return;
    last = lines;
    showHand(lines, titleOf());
  };
  const move = event => {
    x = event.clientX;
    isMoved = isMoved || Math.abs(x - start.clientX) >= LEAST_MOVE;
    if (isMoved && !frame) frame = requestAnimationFrame(look);
  };
  const end = isDone => {
    for (const [name, listener] of listeners) window.removeEventListener(name, listener, true);
    document.body.classList.remove('dragging');
    if (frame) cancelAnimationFrame(frame);
    if (frame && isDone) look();
    if (last === null) return;
    if (isDone && last.length) return doByHand(last, titleOf());
    leaveHand();
    refresh();
    return say('Nothing has changed.');
  };
  /** @type {[string, any][]} */
  const listeners = [
    ['pointermove', move], ['pointerup', () => end(true)], ['pointercancel', () => end(false)],
    ['keydown', event => {
      if (event.key !== 'Escape') return;
      event.preventDefault();
      end(false);
    }],
  ];
  for (const [name, listener] of listeners) window.addEventListener(name, listener, true);
  document.body.classList.add('dragging');
};

const ARROWS = { ArrowLeft: -1, ArrowRight: 1 };
const PAGES = { PageDown: -10, PageUp: 10 };

// By how many minutes a key moves its target, 0 if it does not; and a handle, which keys with modifiers do not move.
export const minutesOfKey = event => ARROWS[event.key] || PAGES[event.key] || 0;
export const moveOf = event => event.ctrlKey || event.metaKey || event.altKey ? 0 : minutesOfKey(event);

// A finger may be about to scroll: the element below it is chosen by a tap, or once it drags.
export const isFinger = event => event.pointerType === 'touch';

// An element with the role of a slider.
export const makeHandle = (name, label, more = {}) =>
  element('span', { class: name, role: 'slider', tabindex: -1, 'aria-label': label, ...more });

export const tellHandle = (handle, now, least, most, text) => {
  setAttribute(handle, 'aria-valuemin', least);
  setAttribute(handle, 'aria-valuemax', most);
  setAttribute(handle, 'aria-valuenow', now);
  setAttribute(handle, 'aria-valuetext', text);
};
