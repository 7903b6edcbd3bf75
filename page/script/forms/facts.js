// The chosen event in words, with fields for its window and its time.

import { display } from '../session/display.js';
import { edit } from '../base/edits.js';
import { element, find, setText } from '../base/elements.js';
import { clockTyped, factForm, minutesField, minutesTyped } from './fields.js';
import { domainText, eventName, lengthText, minuteField, unitText } from '../session/names.js';
import { doStep } from '../session/session.js';
import { letGo } from './strips.js';

const fieldOf = id => minutesField({ id, required: true });

const valueOf = (id, read = clockTyped) => read(find(id).value);

// The fields stay in place, so that typed text is not lost when something else is drawn.
const build = () => {
  const hold = factForm(() => doStep([edit.window(display.chosen, valueOf('hold-first'), valueOf('hold-length', minutesTyped))]),
    element('label', { for: 'hold-first' }, 'held from'), fieldOf('hold-first'),
    element('label', { for: 'hold-length' }, 'for'), fieldOf('hold-length'), element('span', { id: 'hold-unit' }), ' ',
    element('button', {}, 'Hold'), element('button', { type: 'button', id: 'let-go', onclick: () => letGo(display.chosen, false) }, 'Let go'));
  const time = factForm(() => doStep([edit.time(display.chosen, valueOf('time-at'))]),
    element('label', { for: 'time-at' }, 'time'), fieldOf('time-at'),
    element('button', {}, 'Set'), element('button', { type: 'button', id: 'no-time', onclick: () => letGo(display.chosen, true) }, 'Take away'));
  find('facts').replaceChildren(hold, time);
};

const setValue = (id, value) => {
  const input = find(id);
  if (document.activeElement !== input) input.value = value;
};

const update = view => {
  const event = display.chosen, isThere = event !== null && view.domains.has(event);
  find('chosen').hidden = !isThere;
  if (!isThere) return;
  const window = view.network.windows.get(event), time = view.times.get(event), minutes = view.domains.get(event);
  setText(find('chosen-name'), eventName(event));
  setText(find('chosen-minutes'), `Can be at ${domainText(minutes, view.network.period)}.`);
  setValue('hold-first', minuteField(window ? window.first : time === undefined ? minutes[0] || 0 : time));
  setValue('hold-length', lengthText(window ? window.length : 1));
  setText(find('hold-unit'), unitText(window ? window.length : 1));
  setValue('time-at', time === undefined ? '' : minuteField(time));
  find('let-go').disabled = !window;
  find('no-time').disabled = time === undefined;
};

export const factsPanel = { build, update };
