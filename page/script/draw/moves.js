// The moves of a timetable, in edits, in words, and on the strips.

import { display } from '../session/display.js';
import { timeEdits } from '../base/edits.js';
import { element, findAll } from '../base/elements.js';
import { eventName, minutesText, oldText, trainName } from '../session/names.js';
import { timesNow } from '../session/session.js';
import { trainAt } from '../session/trains.js';

// The most trains that are named.
const MOST_NAMED = 2;

const movedBy = times => {
  const before = timesNow();
  return [...times].filter(([event, time]) => before.get(event) !== time);
};

export const editsToTimes = times => timeEdits(movedBy(times));

const farther = (one, other) => {
  const { period } = display.view.network, later = (((other - one) % period) + period) % period;
  return Math.min(later, period - later);
};

// How many trains move, or events if there are no trains, and by how much; except those that are held.
export const movesText = (times, held = new Set()) => {
  const before = timesNow(), moved = movedBy(times).map(([event]) => event).filter(event => !held.has(event)), other = held.size ? 'other ' : '';
  const trains = new Set(moved.map(event => trainAt(event) ? trainAt(event).train : event)), isOfTrains = moved.every(event => trainAt(event));
  const most = moved.reduce((far, event) => before.has(event) ? Math.max(far, farther(before.get(event), times.get(event))) : far, 0);
  if (!moved.length) return `nothing ${held.size ? 'else ' : ''}moves`;
  const named = trains.size <= MOST_NAMED ? [...trains].map(each => isOfTrains ? trainName(each, each.events[0]) : eventName(each)).join(' and ') : '';
  return `${named || `${trains.size} ${other}${isOfTrains ? 'trains' : 'events'}`} move${trains.size > 1 ? '' : 's'}, by at most ${minutesText(most)}`;
};

let ghosts = [];

const ghostIn = ({ before, network: { period } }, strip) => {
  const ghost = element('span', { class: 'old', style: `left: ${100 * (before.times.get(Number(strip.dataset.event)) + 0.5) / period}%` });
  strip.append(ghost);
  return ghost;
};

// The previous times of events that a proposed timetable would move.
export const drawOld = view => {
  for (const ghost of ghosts) ghost.remove();
  ghosts = view.before ? findAll('.strip').filter(strip => oldText(view, Number(strip.dataset.event))).map(strip => ghostIn(view, strip)) : [];
};
