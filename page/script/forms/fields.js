// Fields for numbers. The program receives what is typed, and reports what it refuses.

import { display } from '../session/display.js';
import { element, say } from '../base/elements.js';
import { clock, isOfHours, lengthText } from '../session/names.js';

const CLOCK = /^([+-]?)([0-9]*):([0-5][0-9])$/, FOUR_DIGITS = /^()(0[0-9])([0-5][0-9])$/, OF_A_DAY = /^()([0-2][0-9])([0-5][0-9])$/;

const minutesIn = (text, forms) => {
  const found = forms.map(form => form.exec(text)).find(Boolean);
  return found ? `${found[1]}${60 * Number(found[2]) + Number(found[3])}` : text;
};

// The typed minutes: `6:15` and `0615` are 375, `:07` is 7, and anything else stays unchanged.
export const minutesTyped = text => minutesIn(text.trim(), [CLOCK, FOUR_DIGITS]);

// The same for a minute of the period: if it is written with the hour, four digits are hours and minutes, as `1815`.
export const clockTyped = text => minutesIn(text.trim(), [CLOCK, isOfHours() ? OF_A_DAY : FOUR_DIGITS]);

// The minute of the period typed in a field; null if it is empty. Raises Error.
export const minuteOf = field => {
  const { period } = display.view.network, text = clockTyped(field.value);
  if (text && !(/^[0-9]+$/.test(text) && Number(text) < period)) throw new Error(`${field.value}: wanted a minute up to ${clock(period - 1)}`);
  return text ? Number(text) : null;
};

// Submits a form, and reports faults in its fields.
export const submits = (act, tell = text => say(text, true)) => event => {
  event.preventDefault();
  try {
    act();
  } catch (fault) {
    tell(fault.message);
  }
};

export const factForm = (act, ...children) => element('form', { class: 'fact', onsubmit: submits(act) }, ...children);

/** Whether the focused element accepts letters. @param {any} node */
export const isField = node => node.matches('input:not([type=checkbox]), select, textarea');

export const numberField = more => element('input', { class: 'number', inputmode: 'numeric', autocomplete: 'off', ...more });

const ARROWS = { ArrowUp: 1, ArrowDown: -1 };

// A field for minutes, which arrow keys change by one.
export const minutesField = more => {
  const field = numberField({
    ...more,
    onkeydown: event => {
      const move = ARROWS[event.key], minutes = Number(minutesTyped(field.value) || NaN);
      if (!move || !Number.isInteger(minutes)) return;
      event.preventDefault();
      field.value = lengthText(minutes + move, field.value.includes(':'));
      field.dispatchEvent(new Event('change'));
    },
  });
  return field;
};
