// Headways as bands: the minutes after a train in which no other one may follow it, all along its run.

import { display } from '../session/display.js';
import { drawing } from '../base/elements.js';
import { pathsOf } from './frames.js';
import { labelOf, minutesText, trainName } from '../session/names.js';

const FLAT = 5;

const isHeadway = ({ number, first, last }) => {
  const kind = display.labels.kinds.get(number) || '', [one, other] = [labelOf(first), labelOf(last)];
  return kind === 'headway' || (!kind && one.station && one.station === other.station && one.kind === other.kind);
};

// The most minutes that headways keep free after each event: `lower` after their first, the rest of the period after their last.
export const keptFree = ({ period, activities }) => {
  const free = new Map(), keep = (event, minutes) => minutes > 0 && free.set(event, Math.max(minutes, free.get(event) || 0));
  for (const each of activities.values()) {
    if (!isHeadway(each) || each.upper - each.lower >= period - 1) continue;
    const turns = Math.floor(each.lower / period) * period;
    keep(each.first, each.lower - turns);
    keep(each.last, period + turns - each.upper);
  }
  return free;
};

const pathOf = (frame, points) => pathsOf(frame, points).map(path => `${path}Z`).join('');

/** Along a run from one event to the next; an end without a headway has that of the other end.
 * @param {object} frame
 * @param {any[]} ends
 * @param {number[]} minutes */
const slanted = (frame, [start, end], [after, before]) => {
  const [first, last] = [after || before, before || after];
  return pathOf(frame, [[start.minute, start.y], [end.minute, end.y], [end.minute + last, end.y], [start.minute + first, start.y]]);
};

// At an event whose run is not drawn.
const flat = (frame, { minute, y }, minutes) =>
  pathOf(frame, [[minute, y - FLAT], [minute + minutes, y - FLAT], [minute + minutes, y + FLAT], [minute, y + FLAT]]);

const band = (d, minutes, train) => drawing('path', { class: 'band', d, fill: train.color },
  drawing('title', {}, `Headway: ${minutesText(minutes)} after ${trainName(train, train.events[0])}`));

// The bands of a train; `stops` are its events with their minutes and heights.
export const bandsOf = (frame, train, stops, free) => {
  const made = [], drawn = new Set();
  stops.slice(1).forEach((end, place) => {
    const start = stops[place], minutes = [start, end].map(({ event }) => free.get(event) || 0);
    if (start.y === end.y || !(minutes[0] || minutes[1])) return;
    made.push(band(slanted(frame, [start, end], minutes), Math.max(...minutes), train));
    drawn.add(start.event).add(end.event);
  });
  const alone = stops.filter(({ event }) => free.has(event) && !drawn.has(event));
  return [...made, ...alone.map(stop => band(flat(frame, stop, free.get(stop.event)), free.get(stop.event), train))];
};
