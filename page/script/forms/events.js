// The events by train: the list of their rows, with a bar above those of each train.

import { drawBar, makeBar } from './bars.js';
import { conflictsOf } from '../session/conflicts.js';
import { display } from '../session/display.js';
import { element, find } from '../base/elements.js';
import { bringMinute } from '../session/extent.js';
import { drawRow, makeRow } from './rows.js';
import { choose, chooseAmong, redraw } from '../session/session.js';

const ROWS_OF_A_BLOCK = 40;
// The pixels that the head above the rows takes.
const HEAD = 30;
const rows = new Map();
let order = [], bars = [];

const groupsOf = view => {
  const inTrains = new Set(view.trains.flatMap(train => train.events));
  const groups = view.lines.flatMap(line => line.trains.map(train => ({ line, train, events: train.events })));
  const others = view.network.events.filter(event => !inTrains.has(event));
  return others.length ? [...groups, { events: others }] : groups;
};

const headOf = ({ line, train }) => {
  if (!train) return element('h3', {}, 'Events');
  bars.push(makeBar(line, train));
  return bars[bars.length - 1].node;
};

const build = view => {
  rows.clear();
  bars = [];
  const groups = groupsOf(view);
  order = groups.flatMap(group => group.events);
  for (const event of order) rows.set(event, makeRow(event));
  find('rows').replaceChildren(...groups.map(group => element('section', { class: 'train' }, headOf(group), ...blocks(group.events))));
  chooseAmong(order);
};

// Rows in blocks, of which a browser lays out the visible ones.
const blocks = events => {
  const made = [];
  for (let place = 0; place < events.length; place += ROWS_OF_A_BLOCK) {
    const block = element('div', { class: 'block' }, ...events.slice(place, place + ROWS_OF_A_BLOCK).map(event => rows.get(event).node));
    block.style.containIntrinsicSize = `auto ${1.375 * block.childElementCount}rem`;
    made.push(block);
  }
  return made;
};

const update = view => {
  const { at } = conflictsOf(view);
  rows.forEach((row, event) => drawRow(row, view, at.get(event)));
  bars.forEach(bar => drawBar(bar, view));
};

export const eventsPanel = { build, update };

// Chooses an event, and shows its time if minutes are zoomed.
const chooseSeen = event => {
  const time = display.view.times.get(event), isMoved = time !== undefined && bringMinute(time);
  if (isMoved && event === display.chosen) redraw();
  choose(event);
};

// Scrolls to the row of the chosen event, and focuses it.
export const showRow = (event, isFocused = true) => {
  chooseSeen(event);
  const row = rows.get(event);
  if (!row) return;
  row.node.scrollIntoView({ block: 'nearest' });
  if (isFocused) row.strip.focus({ preventScroll: true });
};

// The same for a train, whose bar is focused; without times it has none.
export const showBar = event => {
  const bar = bars.find(({ train }) => train.events.includes(event));
  showRow(event, !bar || bar.handle.hidden);
  if (!bar || bar.handle.hidden) return;
  bar.node.scrollIntoView({ block: 'nearest' });
  bar.handle.focus({ preventScroll: true });
};

// The same for an event chosen elsewhere, so that nothing but the rows is scrolled; below a pointer minutes stay in place.
export const bringRow = (event, isPointed = false) => {
  if (isPointed) choose(event);
  else chooseSeen(event);
  const row = rows.get(event), panel = find('events');
  if (!row) return;
  const { top, bottom } = row.node.getBoundingClientRect(), seen = panel.getBoundingClientRect();
  if (top < seen.top + HEAD) panel.scrollTop += top - seen.top - HEAD;
  else if (bottom > seen.bottom) panel.scrollTop += bottom - seen.bottom;
};

// The row around a node; null if there is none.
export const rowAt = node => {
  const found = node.closest('[data-row]');
  return found ? rows.get(Number(found.dataset.row)) : null;
};

// The event this many rows further; the same one if there is none.
export const eventBeside = (event, step) => {
  const place = order.indexOf(event) + step;
  return place >= 0 && place < order.length ? order[place] : event;
};
