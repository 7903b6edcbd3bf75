// The violations of the working timetable, at their places: activities with the actual and required minutes, and events
// outside their windows.

import { activityName, kindOf, lengthText, minutesText, spanText, windowText } from './names.js';
import { trainAt } from './trains.js';
import { minutesHad } from '../base/viewing.js';

const MOST_TOLD = 12, NONE = [];
const known = new WeakMap();

const minus = text => text.replace('-', '−');

const conflictOf = (view, number) => {
  const activity = view.network.activities.get(number), { lower, upper } = activity, had = minutesHad(view, number);
  const kind = kindOf(number), off = had < lower ? lower - had : had - upper;
  const missed = `${lengthText(off)} too ${had < lower ? 'few' : 'many'}`;
  const short = `${minus(lengthText(had))} not ${spanText(lower, upper).replace(' to ', '–')}`;
  const detail = `takes ${minus(minutesText(had))}, may take ${spanText(lower, upper)}: ${missed}`;
  return { number, activity, had, missed, short, text: `${short} ${kind}`, isRun: kind === 'run', detail };
};

// The violated activities of the state shown: all of them, and for each event those that begin or end there.
export const conflictsOf = view => {
  const before = known.get(view);
  if (before) return before;
  const made = found(view);
  known.set(view, made);
  return made;
};

const found = view => {
  const all = view.violations ? [...view.violations.activities].map(number => conflictOf(view, number)) : [], at = new Map();
  for (const conflict of all) {
    for (const event of new Set([conflict.activity.first, conflict.activity.last])) {
      if (!at.has(event)) at.set(event, []);
      at.get(event).push(conflict);
    }
  }
  return { all, at };
};

export const conflictsAt = (view, event) => conflictsOf(view).at.get(event) || NONE;

// Those in the row of an event: of its own train only the ones that end there.
export const conflictsOfRow = (view, event) => conflictsAt(view, event).filter(({ activity: { first, last } }) =>
  last === event || !trainAt(first) || !trainAt(first).train.events.includes(last));

// Whether the time of an event is outside its window, if others have no times too.
export const isOutside = ({ network: { windows, period }, times }, event) => {
  const window = windows.get(event);
  return Boolean(window) && times.has(event) && (times.get(event) - window.first + period) % period >= window.length;
};

export const isAlarming = (view, event) => isOutside(view, event) || conflictsOf(view).at.has(event);

// The first of some conflicts with the number of the others, and the names of several; '' if there is none.
export const shortConflicts = ([first, ...others]) => first ? `✕ ${first.text}${others.length ? ` +${others.length}` : ''}` : '';

export const detailsOf = conflicts =>
  conflicts.slice(0, MOST_TOLD).map(({ activity, detail }) => `${activityName(activity)} ${detail}`).join('\n');

// The text for an event outside its window.
export const outsideText = ({ network: { windows, period } }, event) => `not ${windowText(windows.get(event), period)}`;
