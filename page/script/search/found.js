// The results of searches of one network: the best timetable, and a lower bound of all costs; in a planner's words, and compared
// with the timetable shown.

import { costsText, costText, sentence } from '../session/costs.js';
import { isSure } from '../base/replies.js';
import { turned } from '../base/turning.js';
import { isMet } from '../base/viewing.js';

// By how much a cost may be above the best, in thousandths, rounded up, and the greatest for which percentages are useful.
const THOUSAND = 1000n, MOST = 10n * THOUSAND;

const number = value => value.toLocaleString('en');

// If no timetable can be cheaper than the best one, that is an optimum.
const settled = found => found.times && found.bound >= found.cost ? { ...found, kind: 'optimum' } : found;

const higher = (one, other) => one === undefined || other > one ? other : one;

// The better of an earlier result and that of a search now, with the better bound; the progress of that search is kept with either.
export const betterFound = (before, now) => {
  if (isSure(now)) return now;
  const { seconds } = now, nodes = Math.max(before.nodes, now.nodes);
  if (isSure(before)) return { ...before, nodes, seconds };
  const isKept = before.times && !(now.times && now.cost < before.cost);
  return settled({ ...(isKept ? before : now), bound: higher(before.bound, now.bound), nodes, seconds });
};

// How far a cost is from the best, by a bound; '' if that says too little.
const gapText = (cost, bound) => {
  if (!bound) return '';
  const least = BigInt(bound), gap = ((BigInt(cost) - least) * THOUSAND + least - 1n) / least;
  return gap > MOST ? '' : `at most ${number(Number(gap) / 10)} % above the best`;
};

const boundText = ({ bound }) => bound ? `none can be below ${number(bound)}` : '';

const bestText = found => {
  const best = `${sentence(costText(found.cost))}, ${gapText(found.cost, found.bound) || 'perhaps not the best'}`, bound = boundText(found);
  return bound ? `${best} (${bound})` : best;
};

const TEXTS = {
  optimum: ({ cost }) => `${sentence(costText(cost))}: no timetable is better.`,
  infeasible: () => '✕ No timetable meets everything.',
  stopped: bestText,
  none: found => ['No timetable yet', boundText(found)].filter(Boolean).join('; '),
};

export const foundText = found => TEXTS[found.kind](found);

// How long a search took that has ended, by itself or not.
export const tookText = ({ kind, nodes, seconds, isStopped }) => {
  const took = `${seconds < 10 ? seconds.toFixed(1) : Math.floor(seconds)} s`;
  if (isStopped) return `stopped after ${took}`;
  return isSure({ kind }) ? `in ${took}` : `after ${number(nodes)} attempts, ${took}`;
};

// How far the timetable shown is above the best, if known; if it does not meet everything, the cost of the best.
export const aboveText = (found, view) => {
  const { kind, cost, times, bound } = found, best = `the best${kind === 'optimum' ? '' : ' that is found'}`;
  if (!times) return TEXTS[kind](found);
  if (!isMet(view)) return `${best} ${costsText(cost)}`;
  const more = BigInt(view.cost) - BigInt(cost), gap = kind === 'optimum' ? '' : gapText(view.cost, bound) || 'how far above the best is not known yet';
  return [more > 0n ? `${number(more)} above ${best}, which ${costsText(cost)}` : best, gap].filter(Boolean).join('; ');
};

const isShown = ({ cost, times }, view) => cost === view.cost && times.size === view.times.size
  && [...turned(times, view)].every(([event, time]) => view.times.get(event) === time);

// The result compared with the timetable shown, if that meets everything, and the text of its button; while a search runs, a
// timetable that is no better has none.
export const comparedText = (found, view, isSearching) => {
  const { cost, bound } = found;
  if (isShown(found, view)) return { text: 'it is the timetable shown', adopt: '' };
  if (!isMet(view) || cost < view.cost) return { text: '', adopt: 'Take it over' };
  const costNow = number(view.cost);
  if (cost > view.cost) {
    const gap = gapText(view.cost, bound);
    return { text: `✕ worse than the timetable shown (${gap ? `${costNow}, ${gap}` : costNow})`, adopt: isSearching ? '' : 'Take the worse one over' };
  }
  return { text: `as good as the timetable shown (${costNow})`, adopt: isSearching ? '' : 'Take it over all the same' };
};
