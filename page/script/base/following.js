// The effect of edits that were answered by `ok` on a network and its times, and the edits that undo them. `dump` returns the
// same network; it is used when one is opened, and not at each step.

import { activityEdit, edit, windowEdit } from './edits.js';
import { ascending } from './times.js';

// A map that is copied at its first change, and then sorted.
const changing = map => {
  let copy = null, isSorted = true;
  return {
    get: key => (copy || map).get(key),
    set: (key, value) => {
      copy = copy || new Map(map);
      isSorted = isSorted && copy.has(key);
      copy.set(key, value);
    },
    drop: key => {
      copy = copy || new Map(map);
      copy.delete(key);
    },
    made: () => !copy ? map : isSorted ? copy : ascending(copy),
  };
};

const hold = ({ windows }, event, window) => {
  const before = windows.get(event);
  if (window) windows.set(event, window);
  else windows.drop(event);
  return [before ? windowEdit(event, before.first, before.length) : edit.unfix(event)];
};

const setTime = ({ times }, event, time) => {
  const before = times.get(event);
  if (time === undefined) times.drop(event);
  else times.set(event, time);
  return [before === undefined ? edit.untime(event) : edit.time(event, before)];
};

const change = ({ activities }, number, more) => activities.set(number, { ...activities.get(number), ...more });

const addActivity = ({ activities }, [number, first, last, lower, upper, weight]) => {
  activities.set(number, { number, first, last, lower, upper, weight });
  return [edit.dropActivity(number)];
};

const dropActivity = ({ activities }, [number]) => {
  const back = activityEdit(activities.get(number));
  activities.drop(number);
  return [back];
};

const addEvent = ({ events }, [event]) => {
  events.set(event, true);
  return [edit.dropEvent(event)];
};

// Dropping an event removes its window and its time.
const dropEvent = ({ events, windows, times }, [event]) => {
  const window = windows.get(event), time = times.get(event);
  for (const map of [events, windows, times]) map.drop(event);
  return [edit.addEvent(event), window && windowEdit(event, window.first, window.length), time !== undefined && edit.time(event, time)].filter(Boolean);
};

const changeOf = kind => (draft, [number, ...values]) => {
  const { lower, upper, weight, first, last } = draft.activities.get(number);
  const [more, before] = {
    span: [{ lower: values[0], upper: values[1] }, [lower, upper]], weight: [{ weight: values[0] }, [weight]],
    ends: [{ first: values[0], last: values[1] }, [first, last]],
  }[kind];
  change(draft, number, more);
  return [edit[kind](number, ...before)];
};

// For each kind of edit, its effect on a draft, which returns the edits that undo it; the queries whose replies it may change;
// and whether it adds or removes events and activities.
const OF_WINDOWS = ['domains', 'violations'], OF_TIMES = ['tensions', 'violations', 'cost'], ALL = ['domains', 'tensions', 'violations', 'cost'];
const OF_KIND = {
  fix: { act: (draft, [event, first]) => hold(draft, event, { first, length: 1 }), asks: OF_WINDOWS },
  window: { act: (draft, [event, first, length]) => hold(draft, event, { first, length }), asks: OF_WINDOWS },
  unfix: { act: (draft, [event]) => hold(draft, event, null), asks: OF_WINDOWS },
  time: { act: (draft, [event, time]) => setTime(draft, event, time), asks: OF_TIMES },
  untime: { act: (draft, [event]) => setTime(draft, event, undefined), asks: OF_TIMES },
  span: { act: changeOf('span'), asks: ALL },
  weight: { act: changeOf('weight'), asks: ['cost'] },
  ends: { act: changeOf('ends'), asks: ALL, isOfShape: true },
  addEvent: { act: addEvent, asks: ALL, isOfShape: true },
  dropEvent: { act: dropEvent, asks: ALL, isOfShape: true },
  addActivity: { act: addActivity, asks: ALL, isOfShape: true },
  dropActivity: { act: dropActivity, asks: ALL, isOfShape: true },
};

const networkOf = ({ events, windows, activities }, before, isOfShape) => {
  const made = { ...before, events: isOfShape ? [...events.made().keys()] : before.events, windows: windows.made(), activities: activities.made() };
  const isSame = Object.entries(made).every(([name, value]) => before[name] === value);
  return isSame ? before : { ...made, shape: isOfShape ? {} : before.shape };
};

// The network and the times after some edits, the same objects if nothing changes them; the edits that undo them; and the
// queries whose replies they may change.
export const follow = ({ network, times }, edits) => {
  const isOfShape = edits.some(({ kind }) => OF_KIND[kind].isOfShape), { events, windows, activities } = network;
  const draft = { events: changing(isOfShape ? new Map(events.map(event => [event, true])) : new Map()), windows: changing(windows), activities: changing(activities), times: changing(times) };
  const back = edits.map(({ kind, numbers }) => OF_KIND[kind].act(draft, numbers)).reverse().flat(), asks = new Set(edits.flatMap(({ kind }) => OF_KIND[kind].asks));
  return { network: networkOf(draft, network, isOfShape), times: draft.times.made(), back, questions: ALL.filter(question => asks.has(question)) };
};

// The property that an edit sets, whatever its value was, and a later edit sets again; '' if there is no such.
const SETS = { fix: 'window', window: 'window', time: 'time', span: 'span', weight: 'weight', ends: 'ends' }, TAKES = { ...SETS, unfix: 'window', untime: 'time' };

const cellOf = (names, { kind, numbers }) => names[kind] ? `${names[kind]} ${numbers[0]}` : '';

// Of the edits that undo others, those that still have an effect before more edits.
export const neededBefore = (back, more) => {
  const kept = back.map(each => cellOf(TAKES, each)), set = new Set(more.map(each => cellOf(SETS, each)));
  return kept.includes('') || set.has('') ? back : back.filter((_, place) => !set.has(kept[place]));
};
