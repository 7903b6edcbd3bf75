// The minutes above the strips, and which of them the strips show.

import { element, find } from '../base/elements.js';
import { minutesOfStrips } from '../session/extent.js';
import { clock, stepOf } from '../session/names.js';

let drawn = '';

const update = ({ network: { period } }) => {
  const { first, count } = minutesOfStrips(), known = [first, count, period].join();
  if (drawn === known) return;
  drawn = known;
  const step = stepOf(count, period), marks = [], events = find('events');
  for (let minute = Math.ceil(first / step) * step; minute < first + count; minute += step) {
    const mark = element('span', {}, clock(minute));
    mark.style.left = `${100 * (minute - first + 0.5) / count}%`;
    marks.push(mark);
  }
  find('axis').replaceChildren(...marks);
  events.classList.toggle('hours', period > 60);
  events.classList.toggle('zoomed', count < period);
  for (const [name, value] of [['step', `${100 * step / period}%`], ['zoom', period / count], ['from', first / period], ['to', (first + count) / period]]) {
    events.style.setProperty(`--${name}`, value);
  }
};

export const axisPanel = { update };
