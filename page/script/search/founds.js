// The timetables found, of networks by their marks: the cheapest ones of each, and only of the last networks.

import { display } from '../session/display.js';
import { markNow } from '../session/session.js';
import { isMet } from '../base/viewing.js';

const MOST = 8, MOST_NETWORKS = 30, known = new Map(), NONE = [];

const isSame = (one, other) => one.cost === other.cost && [...one.times].every(([event, time]) => other.times.get(event) === time);

export const foundsOf = mark => known.get(mark) || NONE;

export const noteFound = (mark, { kind, times, cost }) => {
  const before = foundsOf(mark), same = times && before.find(each => isSame(each, { times, cost }));
  if (!times || (same && (kind !== 'optimum' || same.kind === kind))) return;
  known.delete(mark);
  known.set(mark, [...before.filter(each => each !== same), { kind, times, cost }].sort((one, other) => Number(BigInt(one.cost) - BigInt(other.cost))).slice(0, MOST));
  for (const old of [...known.keys()].slice(0, -MOST_NETWORKS)) known.delete(old);
};

// The cheapest known timetable that meets everything: one that was found, or the one shown; null if there is none.
export const bestKnown = () => {
  const { times, cost, isTried } = display.view, all = foundsOf(markNow()), [best] = all;
  if (!isTried && isMet(display.view) && !(best && best.cost <= cost)) return { kind: 'stopped', times, cost, isShown: true };
  return best ? { ...best, kind: all.some(each => each.kind === 'optimum' && each.cost === best.cost) ? 'optimum' : 'stopped' } : null;
};
