// Zooms and moves strips and pictures: by the wheel, keys, two fingers, a drag beside all trains, and buttons.

import { display } from '../session/display.js';
import { find, setText } from '../base/elements.js';
import { bringMinute, isShown, isTwice, isZoomed, minutesOfDiagram, minutesOfStrips, shiftMinutes, showAll, showTwice, zoomMinutes } from '../session/extent.js';
import { isField } from '../forms/fields.js';
import { mapZoom, showWholeMap, zoomMap } from './fitting.js';
import { minutesOn } from './frames.js';
import { isFinger } from '../forms/handles.js';
import { clock } from '../session/names.js';
import { redraw } from '../session/session.js';
import { isTab } from '../session/tabs.js';

const DIAGRAMS = ['diagram', 'corridor'], MAP = 'netgraph', STRIPS = 'events', STEP = 1.5, FULL_WHEEL = 500, LEAST_MOVE = 3, LEAST_APART = 20;
const OF_MINUTES = [...DIAGRAMS, STRIPS];
let frame = 0, last = { event: null, time: null };

const drawSoon = () => {
  frame = frame || requestAnimationFrame(() => {
    frame = 0;
    redraw();
  });
};

// The place of the minutes of strips or of a diagram on the screen, and which they are; null if none are drawn.
const minutesOf = name => {
  const { left, width } = find('axis').getBoundingClientRect(), [page] = find(name).children;
  if (name === STRIPS) return { left, width, ...minutesOfStrips() };
  return page ? { ...minutesOn(page), ...minutesOfDiagram() } : null;
};

// Zooms by a factor about a place of the screen; false if that changes nothing.
const zoom = (name, factor, x, y) => {
  if (name === MAP) return zoomMap(1 / factor, x, y);
  const { left, width, first, count } = minutesOf(name), { period } = display.view.network;
  const turns = name === STRIPS ? Math.floor(minutesOfDiagram().first / period) * period : 0;
  return zoomMinutes(factor, turns + first + count * (x - left) / width);
};

// Moves the picture by some pixels.
const move = (name, across, down) => {
  if (name !== MAP) {
    const { width, count } = minutesOf(name);
    return shiftMinutes(across * count / width);
  }
  const holder = find(MAP), before = [holder.scrollLeft, holder.scrollTop];
  holder.scrollBy(across, down);
  return before[0] !== holder.scrollLeft || before[1] !== holder.scrollTop;
};

// The wheel scrolls the rows of strips, except those above them and with Ctrl, and zooms above the minutes of a picture.
const isZooming = (name, event) => {
  if (name === MAP) return !event.shiftKey;
  if (name === STRIPS) return event.ctrlKey || event.shiftKey || Boolean(event.target.closest('#axis'));
  const minutes = minutesOf(name);
  return Boolean(minutes) && (event.ctrlKey || event.clientX >= minutes.left);
};

const wheel = (name, event) => {
  if (!isZooming(name, event)) return;
  const unit = event.deltaMode ? 16 : 1, across = event.shiftKey ? event.deltaX || event.deltaY : event.deltaX;
  // Two fingers on a touchpad arrive as a wheel with Ctrl, in small parts.
  const turn = event.ctrlKey && Math.abs(event.deltaY) < 40 ? 5 * event.deltaY : event.deltaY, isAcross = Math.abs(across) > (event.shiftKey ? 0 : Math.abs(turn));
  if (isAcross && name === MAP) return;
  const isDone = isAcross ? move(name, across * unit, 0) : zoom(name, Math.exp(turn * unit / FULL_WHEEL), event.clientX, event.clientY);
  if (!isDone && !event.ctrlKey) return;
  event.preventDefault();
  drawSoon();
};

const spanOf = ([one, other]) => ({
  x: (one.clientX + other.clientX) / 2, y: (one.clientY + other.clientY) / 2,
  apart: Math.max(LEAST_APART, Math.hypot(one.clientX - other.clientX, one.clientY - other.clientY)),
});

// Two fingers zoom and move; what one of them did before is cancelled.
const pinch = (name, start) => {
  if (start.touches.length !== 2 || (name !== STRIPS && !find(name).firstElementChild)) return;
  find(name).dispatchEvent(new PointerEvent('pointercancel', { bubbles: true }));
  let before = spanOf(start.touches);
  const ending = new AbortController(), { signal } = ending, targets = new Set([...start.touches].map(({ target }) => target));
  const follow = event => {
    if (event.touches.length !== 2) return;
    const now = spanOf(event.touches), isZoom = zoom(name, before.apart / now.apart, now.x, now.y), isMove = move(name, before.x - now.x, before.y - now.y);
    before = now;
    if (isZoom || isMove) drawSoon();
  };
  // A touched element may be removed when it is drawn again, and still receives the events of its fingers.
  for (const target of targets) {
    target.addEventListener('touchmove', follow, { signal });
    for (const end of ['touchend', 'touchcancel']) target.addEventListener(end, () => ending.abort(), { signal });
  }
};

// A drag beside all trains moves a zoomed picture; a finger scrolls the netgraph like everything else.
const slide = (name, event) => {
  if (event.button !== 0 || event.target.closest('.reach') || (name === MAP ? isFinger(event) : !isZoomed() || !minutesOf(name))) return;
  const holder = find(name), ending = new AbortController(), { signal } = ending, start = [event.clientX, event.clientY];
  let [x, y] = start, isMoved = false;
  if (isFinger(event) && event.isTrusted) holder.setPointerCapture(event.pointerId);
  window.addEventListener('pointermove', at => {
    if (!isMoved && Math.hypot(at.clientX - start[0], at.clientY - start[1]) < LEAST_MOVE) return;
    if (move(name, x - at.clientX, y - at.clientY)) {
      isMoved = true;
      drawSoon();
    }
    [x, y] = [at.clientX, at.clientY];
  }, { signal });
  const end = () => {
    ending.abort();
    if (!isMoved) return;
    // The element below the pointer moved with it, and is not clicked.
    const stop = each => each.stopPropagation();
    holder.addEventListener('click', stop, { capture: true });
    setTimeout(() => holder.removeEventListener('click', stop, { capture: true }));
  };
  for (const each of ['pointerup', 'pointercancel']) window.addEventListener(each, end, { signal });
};

// Zooms about the time of the chosen event, or about the middle.
const zoomShown = (name, factor) => {
  if (name === MAP) {
    const { left, top, width, height } = find(MAP).getBoundingClientRect();
    return zoomMap(1 / factor, left + width / 2, top + height / 2);
  }
  const time = display.view.times.get(display.chosen), { first, count } = minutesOfDiagram();
  if (time !== undefined) bringMinute(time);
  const { period } = display.view.network, at = time === undefined ? first + count / 2 : time + Math.floor(minutesOfDiagram().first / period) * period;
  return zoomMinutes(factor, at);
};

const showEverything = name => name === MAP ? showWholeMap() : showAll();

const KEYS = {
  '+': name => zoomShown(name, 1 / STEP), '=': name => zoomShown(name, 1 / STEP), '-': name => zoomShown(name, STEP), 0: showEverything,
};

// In a picture the keys alone, and on strips, where they have another meaning, with Alt.
const typed = event => {
  const name = [...OF_MINUTES, MAP].find(each => find(each).contains(event.target));
  if (!name || !(event.key in KEYS) || event.ctrlKey || event.metaKey || isField(event.target) || (name === STRIPS && !event.altKey)) return;
  event.preventDefault();
  event.stopPropagation();
  KEYS[event.key](name);
  redraw();
};

// The target of the buttons.
const pictureNow = () => isTab(MAP) ? MAP : DIAGRAMS[0];

const press = key => () => {
  KEYS[key](pictureNow());
  redraw();
};

const rangeText = () => {
  if (isTab(MAP)) return `${Math.round(100 * mapZoom())} %`;
  const { period } = display.view.network, { first, count } = minutesOfDiagram();
  return isZoomed() ? [first, first + count].map(minute => clock(Math.round(minute) % period)).join('–') : '';
};

// If the time of the chosen event was visible, it stays visible when it moves.
const follow = ({ times }) => {
  const event = display.chosen, time = times.get(event), isMoved = last.event === event && last.time !== time && time !== undefined && last.time !== undefined && isShown(last.time);
  last = { event, time };
  if (isMoved && !document.body.classList.contains('dragging') && bringMinute(time)) drawSoon();
};

export const zoomPanel = {
  begin: showAll,
  update: view => {
    follow(view);
    setText(find('zoom-told'), rangeText());
    find('two-periods').checked = isTwice();
  },
};

export const startZooming = () => {
  for (const name of [...OF_MINUTES, MAP]) {
    const holder = find(name);
    holder.addEventListener('wheel', event => wheel(name, event), { passive: false });
    holder.addEventListener('touchstart', event => pinch(name, event), { passive: true });
    // A browser scrolls by two fingers unless this is prevented.
    holder.addEventListener('touchmove', event => event.touches.length === 2 && event.cancelable && event.preventDefault(), { passive: false });
    if (name !== STRIPS) holder.addEventListener('pointerdown', event => slide(name, event));
  }
  document.addEventListener('keydown', typed, true);
  for (const [id, key] of [['zoom-in', '+'], ['zoom-out', '-'], ['zoom-all', '0']]) find(id).addEventListener('click', press(key));
  find('two-periods').addEventListener('change', event => {
    showTwice(event.target.checked);
    redraw();
  });
};
