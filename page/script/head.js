// The part that is always on the screen: cost and violations, how many events are limited, and what can be done next.

import { costNote, violatedNote } from './forms/changing.js';
import { display } from './session/display.js';
import { find, setText } from './base/elements.js';
import { lengthText } from './session/names.js';
import { showOpening } from './files/opening.js';
import { showSaving } from './files/saving.js';
import { doStep, redo, session, undo } from './session/session.js';
import { untimedText } from './base/timed.js';
import { countLimited, countViolated, isInfeasible } from './base/viewing.js';

const update = view => {
  const { network } = view;
  setText(find('title'), session.opened.title);
  const title = [session.opened.title, 'pespbench'].filter(Boolean).join(' – ');
  if (document.title !== title) document.title = title;
  setText(find('size'),
    `${network.events.length} events, ${network.activities.size} activities, period ${lengthText(network.period)}`);
  const isKnown = view.tensions.size > 0 || !view.missing, note = costNote(view), untimed = untimedText(view);
  setText(find('figure-cost').querySelector('span'), view.labels.cost || 'Cost');
  if (document.activeElement !== find('cost-name')) find('cost-name').value = view.labels.cost || '';
  tell('cost', isKnown ? view.cost.toLocaleString('en') : '–', untimed || note, false);
  tellViolated(view, isKnown ? countViolated(view) : null);
  tellLimited(view);
  find('undo').disabled = !session.place;
  find('redo').disabled = session.place === session.steps.length;
};

const tellViolated = (view, count) => {
  const words = violatedNote(view, count ? '✕ see which' : view.missing ? 'of what has times' : '✓ all are met');
  tell('violations', count === null ? '–' : String(count), count === null ? 'no times' : words, count > 0);
};

const tellLimited = view => {
  if (isInfeasible(view)) tell('limited', '✕', 'no timetable meets this', true);
  else tell('limited', String(countLimited(view)), `of ${view.network.events.length} events`, false);
};

const tell = (name, value, note, isAlarm) => {
  const figure = find(`figure-${name}`);
  setText(figure.querySelector('b'), value);
  setText(figure.querySelector('small'), note);
  figure.classList.toggle('alarm', isAlarm);
};

export const headPanel = { update };

const KEYS = new Map([
  ['z', event => event.shiftKey ? redo() : undo()], ['y', () => redo()],
  ['o', () => showOpening()], ['s', () => showSaving()],
]);
// A field undoes typing there by the same keys.
const OF_FIELDS = ['z', 'y'], FIELDS = 'input:not([type=checkbox])';

// The name of the cost is one of the labels.
const nameCost = event => {
  const cost = event.target.value.trim();
  doStep([], { labels: { ...display.labels, cost }, title: `cost is called ${cost || 'cost'}` });
};

export const startHead = () => {
  find('cost-name').addEventListener('change', nameCost);
  for (const [name, act] of [['undo', undo], ['redo', redo]]) find(name).addEventListener('click', act);
  window.addEventListener('keydown', event => {
    const key = event.key.toLowerCase(), isOfField = OF_FIELDS.includes(key) && /** @type {any} */ (event.target).matches(FIELDS);
    if (!(event.ctrlKey || event.metaKey) || event.altKey || !KEYS.has(key) || isOfField) return;
    event.preventDefault();
    if (!document.querySelector('dialog[open]')) KEYS.get(key)(event);
  });
};
