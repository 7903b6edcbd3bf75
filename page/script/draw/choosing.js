// Things drawn in a view are chosen by a click there, and by keys: ↑ ↓ go to other events, ← → move the train of the chosen one.

import { conflictsAt, shortConflicts } from '../session/conflicts.js';
import { display } from '../session/display.js';
import { find, setAttribute } from '../base/elements.js';
import { bringRow, eventBeside, showRow } from '../forms/events.js';
import { minutesOfDiagram } from '../session/extent.js';
import { minutesOn } from './frames.js';
import { isFinger, minutesOfKey, tellHandle } from '../forms/handles.js';
import { beginMove, moveTrain, wantsFromHere } from '../forms/moving.js';
import { clock, eventName, labelOf } from '../session/names.js';
import { showActivity } from '../forms/spans.js';
import { unfold } from '../forms/unfolding.js';

const DIAGRAMS = ['diagram', 'corridor'], VIEWS = [...DIAGRAMS, 'netgraph', 'board', 'tables'];

// An event at a station: the one after the chosen one, so that further clicks cycle through them.
const eventAt = station => {
  const events = display.view.trains.flatMap(train => train.events).filter(event => labelOf(event).station === station);
  return events[(events.indexOf(display.chosen) + 1) % events.length];
};

// The end of a piece of a path that is nearer to a pointer.
const nearerEnd = (piece, { clientX, clientY }) => {
  const matrix = piece.getScreenCTM(), [first, last] = [0, piece.getTotalLength()].map(at => {
    const { x, y } = piece.getPointAtLength(at).matrixTransform(matrix);
    return Math.hypot(x - clientX, y - clientY);
  });
  return Number(first <= last ? piece.dataset.event : piece.dataset.next);
};

// On a run "from here on" begins at its departure, and in a dwell at the departure after it.
const beginsHere = ({ dataset: { event, next } }) => Number(labelOf(Number(event)).kind === 'departure' ? event : next);

const begin = event => {
  const piece = event.target.closest('.reach'), holder = event.currentTarget;
  if (!piece || event.button !== 0) return;
  const isFromHere = wantsFromHere(event), here = isFromHere ? beginsHere(piece) : nearerEnd(piece, event);
  // A touched element is drawn again at each step, so a finger is followed on an element that stays.
  if (event.isTrusted) holder.setPointerCapture(event.pointerId);
  if (!isFinger(event)) {
    event.preventDefault();
    lead(holder, here);
  }
  beginMove(event, here, minutesOn(holder.firstElementChild).width / minutesOfDiagram().count, isFromHere);
};

// Chooses an event, and focuses the view.
const lead = (holder, event) => {
  bringRow(event, true);
  holder.focus({ preventScroll: true });
};

// The target of a click; for a finger, which is followed on the view, the element below it.
const clickedOn = event => isFinger(event) ? document.elementFromPoint(event.clientX, event.clientY) : event.target;

const clicked = event => {
  const found = clickedOn(event)?.closest('[data-activity], [data-event], [data-station]'), holder = event.currentTarget;
  if (!found || !holder.contains(found)) return;
  unfold();
  const { activity, station, event: at } = found.dataset, here = at === undefined ? null : Number(at);
  if (activity !== undefined) return showActivity(Number(activity), here);
  lead(holder, found.matches('.reach') ? nearerEnd(found, event) : here === null ? eventAt(station) : here);
};

const ROWS = { ArrowUp: -1, ArrowDown: 1 };

const typed = event => {
  const minutes = event.metaKey ? 0 : minutesOfKey(event), row = ROWS[event.key], holder = event.currentTarget;
  if (event.target !== holder) return;
  if (minutes) moveTrain(display.chosen, minutes, wantsFromHere(event));
  else if (row) bringRow(eventBeside(display.chosen, row));
  else if (event.key === 'Enter') showRow(display.chosen);
  else return;
  event.preventDefault();
  const cell = holder.querySelector('td.chosen');
  if (cell) cell.scrollIntoView({ block: 'nearest', inline: 'nearest' });
};

// Announces the chosen event in a view to a screen reader.
const tell = (holder, view) => {
  const event = display.chosen, time = view.times.get(event), broken = shortConflicts(conflictsAt(view, event));
  const name = event === null ? 'no event' : `the train of ${eventName(event)}`;
  const state = `${time === undefined ? 'no time' : clock(time)} ${broken}`, isSlider = holder.getAttribute('role') === 'slider';
  setAttribute(holder, 'aria-label', isSlider ? name : `${name} ${state}`);
  if (isSlider) tellHandle(holder, time || 0, 0, view.network.period - 1, state);
};

export const choosingPanel = { update: view => [...DIAGRAMS, 'netgraph'].forEach(name => tell(find(name), view)) };

export const startChoosing = () => {
  for (const name of VIEWS) {
    find(name).addEventListener('click', clicked);
    find(name).addEventListener('keydown', typed);
  }
  for (const name of DIAGRAMS) find(name).addEventListener('pointerdown', begin);
};
