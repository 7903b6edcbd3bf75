// The head of a train above its events, with a bar from its first minute to its last, by which the train is moved.

import { conflictsAt, isAlarming, isOutside, outsideText } from '../session/conflicts.js';
import { display } from '../session/display.js';
import { drawing, element, setAttribute, setText } from '../base/elements.js';
import { isFinger, makeHandle, minutesOfKey, tellHandle, unitAt } from './handles.js';
import { beginMove, moveTrain, shiftText, wantsFromHere } from './moving.js';
import { clock, trainName, twinText } from '../session/names.js';
import { choose } from '../session/session.js';
import { isStaying, timedPieces } from '../session/trains.js';

export const makeBar = (line, train) => {
  const bar = { train, drawn: '', handle: null, note: element('span', { class: 'note' }) }, [first] = train.events;
  const pill = element('span', { class: 'pill' }, line.name);
  pill.style.background = line.color;
  [bar.whole, bar.broken, bar.stops] = ['whole', 'broken', 'stops'].map(piece => drawing('path', { class: piece, stroke: line.color }));
  bar.svg = drawing('svg', { preserveAspectRatio: 'none', 'aria-hidden': 'true' }, bar.whole, bar.broken, bar.stops);
  bar.handle = makeHandle('way', '', {
    'data-way': first, onpointerdown: event => begin(bar, event), onkeydown: event => typed(bar, event),
    onclick: event => isFinger(event) && choose(nearest(bar, event.clientX)),
  });
  bar.handle.append(bar.svg);
  bar.to = element('span');
  bar.node = element('div', { class: 'row bar' }, element('h3', {}, pill, bar.to), bar.handle, bar.note);
  return bar;
};

// A path over some minutes within the period, each once.
const pathOf = (minutes, period) => {
  const least = Math.min(...minutes), count = Math.max(...minutes) - least, start = 0.5 + ((least % period) + period) % period;
  if (count >= period) return `M0 .5H${period}`;
  return start + count <= period ? `M${start} .5h${count}` : `M${start} .5H${period}M0 .5H${start + count - period}`;
};

// The part of a train with violations, and these.
const brokenOf = (view, { steps }, minutes) => steps.map((step, place) => view.violations && view.violations.activities.has(step)
  ? pathOf(minutes.slice(place, place + 2), view.network.period) : '').join('');

const noteOf = (view, { events }) => {
  if (!events.some(event => isAlarming(view, event))) return shiftText(view, events[0]) || (isStaying(events[0]) ? 'stays' : '');
  const outside = events.find(event => isOutside(view, event)), broken = new Set(events.flatMap(event => conflictsAt(view, event)));
  const fault = outside !== undefined ? `✕ ${outsideText(view, outside)}` : broken.size ? `✕ ${broken.size} violated` : '';
  return [shiftText(view, events[0]), fault].filter(Boolean).join(' ');
};

// Draws the changes of a train.
export const drawBar = (bar, view) => {
  const { train, handle } = bar, { period } = view.network, isChosen = train.events.includes(display.chosen), note = noteOf(view, train);
  const times = train.events.map(event => view.times.get(event)), name = trainName(train, train.events[0]), drawn = `${times} ${period} ${note} ${isChosen} ${name}`;
  if (bar.drawn === drawn) return;
  bar.drawn = drawn;
  const pieces = timedPieces(view, train), known = times.filter(time => time !== undefined), [first = 0] = known;
  setText(bar.to, ` to ${train.to}${twinText(train.events[0])}`);
  setAttribute(bar.to.parentNode, 'title', name);
  setAttribute(handle, 'aria-label', `${name}: the whole train`);
  bar.svg.setAttribute('viewBox', `0 0 ${period} 1`);
  bar.whole.setAttribute('d', pieces.map(({ minutes }) => pathOf(minutes, period)).join(''));
  bar.broken.setAttribute('d', pieces.map(piece => brokenOf(view, piece.train, piece.minutes)).join(''));
  bar.stops.setAttribute('d', known.map(time => `M${time + 0.5} 0V1`).join(''));
  if (handle.hidden !== !known.length) handle.hidden = !known.length;
  // Set only if it differs: a browser lays out the page to see whether the focused element can keep the focus.
  setAttribute(handle, 'tabindex', isChosen ? 0 : -1);
  bar.node.classList.toggle('alarm', note.includes('✕'));
  setText(bar.note, note);
  tellHandle(handle, first, 0, period - 1, `${clock(first)} ${note}`);
};

// The event of a train that is nearest to a place on its bar.
const nearest = ({ train, handle }, x) => {
  const { times, network: { period } } = display.view, minute = unitAt(handle, x, 0, period);
  const far = event => Math.min(...[-period, 0, period].map(shift => Math.abs(times.get(event) + shift - minute)));
  return train.events.filter(event => times.has(event)).reduce((best, event) => far(event) < far(best) ? event : best);
};

const begin = (bar, event) => {
  if (event.button !== 0) return;
  const here = nearest(bar, event.clientX);
  if (!isFinger(event)) {
    choose(here);
    bar.handle.focus({ preventScroll: true });
    event.preventDefault();
  }
  beginMove(event, here, bar.handle.clientWidth / display.view.network.period, wantsFromHere(event));
};

const typed = ({ train: { events } }, event) => {
  const minutes = event.metaKey ? 0 : minutesOfKey(event);
  if (!minutes) return;
  event.preventDefault();
  moveTrain(events.includes(display.chosen) ? display.chosen : events[0], minutes, wantsFromHere(event));
};
