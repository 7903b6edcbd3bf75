// The row of an event: its name, its time, the strip of its domain with its window, and a remark on that.

import { conflictsOfRow, detailsOf, isOutside, shortConflicts } from '../session/conflicts.js';
import { display } from '../session/display.js';
import { drawing, element, setText } from '../base/elements.js';
import { makeHandle, tellHandle } from './handles.js';
import { clock, domainText, eventName, eventShort, runsOf, twinText, windowText } from '../session/names.js';

// An event's row, with what was drawn last, so that only changes are drawn.
export const makeRow = event => {
  const { place, kind } = eventShort(event);
  const row = { event, drawn: {} };
  row.was = drawing('path', { class: 'was' });
  row.possible = drawing('path', { class: 'possible' });
  row.held = drawing('path', { class: 'held' });
  row.svg = drawing('svg', { preserveAspectRatio: 'none', 'aria-hidden': 'true' }, row.was, row.possible, row.held);
  row.strip = makeHandle('strip', '', { 'data-event': event });
  row.strip.append(row.svg);
  row.time = element('span', { class: 'time' });
  row.note = element('span', { class: 'note' });
  row.notes = element('span', { class: 'notes' }, row.note);
  row.name = element('span', { class: 'name' }, element('span', {}, place), ' ', element('small', {}, kind));
  row.node = element('div', { class: 'row', 'data-row': event }, row.name, row.time, row.strip, row.notes);
  return row;
};

// A path over runs of minutes in a strip that is one unit high.
const pathOf = minutes => runsOf(minutes).map(([first, last]) => `M${first} 0H${last + 1}V1H${first}Z`).join('');

// The frame of a window; one that wraps around the end of the period has two parts.
const frameOf = ({ first, length }, period) => {
  const end = first + length;
  if (end <= period) return `M${first} 0H${end}V1H${first}Z`;
  return `M${period} 0H${first}V1H${period}M0 0H${end - period}V1H0`;
};

// The present strip of an event, without handles.
export const stripPicture = (view, event) => {
  const { period, windows } = view.network, time = view.times.get(event);
  return drawing('svg', { class: 'strip-picture', viewBox: `0 0 ${period} 1`, preserveAspectRatio: 'none', role: 'img', 'aria-label': `Possible minutes of ${eventName(event)}` },
    drawing('path', { class: 'possible', d: pathOf(view.domains.get(event)) }),
    windows.has(event) ? drawing('path', { class: 'held', d: frameOf(windows.get(event), period) }) : null,
    time === undefined ? null : drawing('path', { class: 'at', d: `M${time + 0.5} 0V1` }));
};

const once = (row, name, value, draw) => {
  if (row.drawn[name] === value) return;
  row.drawn[name] = value;
  draw(value);
};

const grip = (row, name, label) => {
  if (!row[name]) {
    const more = { 'data-grip': name, tabindex: display.chosen === row.event ? 0 : -1 };
    row[name] = makeHandle(`grip ${name}`, `${eventName(row.event)}: ${label}`, more);
    row.strip.append(row[name]);
  }
  return row[name];
};

// The window of the event, and the handles at its ends.
const drawHeld = (row, window, period) => {
  row.held.setAttribute('d', window ? frameOf(window, period) : '');
  for (const name of ['first', 'last']) if (row[name]) row[name].hidden = !window;
  if (!window) return;
  const { first, length } = window, last = (first + length - 1) % period;
  for (const [name, minute, label, left] of [['first', first, 'first minute', first], ['last', last, 'last minute', last + 1]]) {
    const handle = grip(row, name, label);
    handle.dataset.at = left;
    tellHandle(handle, minute, 0, period - 1, clock(minute));
  }
};

// The ends of a frame are at their places, except beside a diamond there, on the outer side.
const BESIDE = '0.8rem', NEAR = 0.05;

/** @type {[string, number][]} */
const SIDES = [['first', -1], ['last', 1]];

const placeEnds = (row, time, period) => {
  for (const [name, side] of SIDES) {
    const handle = row[name];
    if (!handle || handle.hidden) continue;
    const at = Number(handle.dataset.at) / period, middle = (time + 0.5) / period, isNear = time !== undefined && side * (middle - at) < NEAR;
    const beside = `calc(${100 * middle}% ${side < 0 ? '-' : '+'} ${BESIDE})`;
    handle.style.left = isNear ? `${side < 0 ? 'min' : 'max'}(${100 * at}%, ${beside})` : `${100 * at}%`;
  }
};

const drawTime = (row, time, period) => {
  setText(row.time, time === undefined ? '–' : clock(time));
  if (row.now) row.now.hidden = time === undefined;
  if (time === undefined) return;
  const handle = grip(row, 'now', 'time in the timetable');
  handle.style.left = `${100 * (time + 0.5) / period}%`;
  tellHandle(handle, time, 0, period - 1, clock(time));
};

const noteOf = (window, isViolated, period) => {
  if (!window) return '';
  return (isViolated ? '✕ not ' : '') + windowText(window, period);
};

const toldOf = conflicts => conflicts ? `${conflicts[0].number} ${conflicts[0].short} ${conflicts.length}` : '';

// The violated activities at the event; one that is too long for its place is complete in its title.
const drawBroken = (row, isBroken, conflicts) => {
  row.node.classList.toggle('broken', isBroken);
  row.notes.replaceChildren(row.note);
  if (!conflicts.length) return;
  row.notes.append(element('button', {
    class: 'conflict', type: 'button', tabindex: display.chosen === row.event ? 0 : -1, title: detailsOf(conflicts),
    'data-conflict': conflicts[0].number,
  }, shortConflicts(conflicts)));
};

const isSeen = (seen, before) => {
  for (let place = 0; place < seen.length; place += 1) if (seen[place] !== before[place]) return false;
  return true;
};

// Draws the changes of an event, whose violations are `conflicts`.
export const drawRow = (row, view, conflicts) => {
  const { event } = row, period = view.network.period, minutes = view.domains.get(event), window = view.network.windows.get(event);
  const isViolated = isOutside(view, event), isChosen = display.chosen === event, broken = toldOf(conflicts), twin = twinText(event);
  const seen = [minutes, period, window && window.first, window && window.length, view.times.get(event), isViolated, isChosen, broken, twin];
  if (row.seen && isSeen(seen, row.seen)) return;
  row.seen = seen;
  once(row, 'name', twin, () => nameRow(row, eventName(event)));
  once(row, 'period', period, () => row.svg.setAttribute('viewBox', `0 0 ${period} 1`));
  once(row, 'possible', pathOf(minutes), path => row.possible.setAttribute('d', path));
  once(row, 'was', minutes.length ? '' : pathOf(view.lastDomains.get(event) || []), path => row.was.setAttribute('d', path));
  once(row, 'count', minutes.length, count => {
    row.node.classList.toggle('none', !count);
    row.node.classList.toggle('any', count === period);
  });
  once(row, 'window', window ? `${window.first} ${window.length}` : '', () => drawHeld(row, window, period));
  once(row, 'time', view.times.get(event), time => drawTime(row, time, period));
  once(row, 'ends', `${row.drawn.window} ${row.drawn.time}`, () => placeEnds(row, view.times.get(event), period));
  once(row, 'note', noteOf(window, isViolated, period), text => {
    setText(row.note, text);
    row.note.title = text;
  });
  once(row, 'violated', isViolated, () => row.node.classList.toggle('alarm', isViolated));
  once(row, 'broken', broken, () => drawBroken(row, Boolean(broken), conflictsOfRow(view, event)));
  once(row, 'chosen', isChosen, () => chooseRow(row, isChosen));
  once(row, 'told', `${row.drawn.possible} ${row.drawn.window}`, () => tellStrip(row, view, window));
};

const tellStrip = (row, view, window) => {
  const period = view.network.period, minutes = view.domains.get(row.event);
  const can = `can be at ${domainText(minutes, period)}`, held = window ? `held ${windowText(window, period)}` : 'not held';
  tellHandle(row.strip, window ? window.first : minutes[0] || 0, 0, period - 1, `${can}; ${held}`);
};

const nameRow = (row, name) => {
  row.name.title = name;
  row.strip.setAttribute('aria-label', name);
};

const chooseRow = (row, isChosen) => {
  row.node.classList.toggle('chosen', isChosen);
  for (const handle of [row.strip, row.first, row.last, row.now, row.notes.querySelector('button')]) if (handle) handle.tabIndex = isChosen ? 0 : -1;
};
