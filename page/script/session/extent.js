// The minutes shown: all of a period, or a part of them. A diagram shows one period or two, and strips at most one.

import { display } from './display.js';

const LEAST = 10;
let kept = { first: 0, count: Infinity, turns: 1 };

const within = (value, least, most) => Math.min(most, Math.max(least, value));

const periodNow = () => display.view.network.period;

export const isTwice = () => kept.turns > 1;

// The minutes that a diagram shows, the first and how many.
export const minutesOfDiagram = () => {
  const whole = kept.turns * periodNow(), count = Math.min(kept.count, whole);
  return { first: within(kept.first, 0, whole - count), count };
};

// Those of them that strips show, which lie within one period.
export const minutesOfStrips = () => {
  const period = periodNow(), { first, count } = minutesOfDiagram(), most = Math.min(count, period);
  return { first: Math.min(first % period, period - most), count: most };
};

export const isZoomed = () => minutesOfDiagram().count < kept.turns * periodNow();

// Shows other minutes, as many as there are at most; false if they are already shown.
const showMinutes = (first, count) => {
  const before = minutesOfDiagram(), whole = kept.turns * periodNow();
  kept = { ...kept, first, count: within(count, Math.min(LEAST, whole), whole) };
  kept.first = minutesOfDiagram().first;
  const after = minutesOfDiagram();
  return before.first !== after.first || before.count !== after.count;
};

export const showTwice = isOn => {
  const isAll = !isZoomed();
  kept = { ...kept, turns: isOn ? 2 : 1 };
  if (isAll) showMinutes(0, Infinity);
};

// Shows a multiple of the minutes; one of them stays in place.
export const zoomMinutes = (factor, at) => {
  const { first, count } = minutesOfDiagram(), made = within(count * factor, Math.min(LEAST, periodNow()), kept.turns * periodNow());
  return showMinutes(at - (at - first) * made / count, made);
};

export const shiftMinutes = minutes => showMinutes(minutesOfDiagram().first + minutes, minutesOfDiagram().count);

export const isShown = minute => {
  const period = periodNow(), { first, count } = minutesOfDiagram();
  return minute + Math.ceil((first - minute) / period) * period < first + count;
};

// Centers a minute of the period, if it is not shown.
export const bringMinute = minute => {
  const { count } = minutesOfDiagram();
  return !isShown(minute) && showMinutes(minute - count / 2, count);
};

export const showAll = () => { kept = { ...kept, first: 0, count: Infinity }; };
