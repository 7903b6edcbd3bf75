// What a minute costs, by a session, which is unchanged afterwards: the least cost of a timetable that has an event at a minute,
// whatever its window, or in which an activity takes a number of minutes.

import { edit, windowEdit } from '../base/edits.js';
import { exactly, isSure } from '../base/replies.js';
import { does } from '../base/running.js';

// The longest search for a minute, in milliseconds; the nodes of the first step of a search, and about how long it takes; and the nodes
// of the first step for a price, often enough.
const MOST = 1500, FIRST_NODES = 1000, STEP = 100, FEW_NODES = 10;
// How long messages may wait, in milliseconds: browsers spend 4 on each look for them, as long as a price may take.
const UNHEARD = 25;

const OF = {
  event: ({ number, window }, minute) => ({
    line: edit.fix(number, minute).line, back: (window ? windowEdit(number, window.first, window.length) : edit.unfix(number)).line, less: 0n,
  }),
  // Minutes up to the new minimum cost nothing in the search, so their cost is added.
  activity: ({ number, lower, upper, weight }, minutes) => ({
    line: edit.span(number, minutes, minutes).line, back: edit.span(number, lower, upper).line, less: BigInt(weight) * BigInt(minutes - lower),
  }),
};

const more = (cost, less) => cost === undefined ? undefined : exactly(String(BigInt(cost) + less));

// A price: the kind of a search's result, the cost or a bound for it, and the times of the timetable, event by event.
const priceOf = ({ kind, cost, bound, times }, less) =>
  ({ kind, cost: more(cost, less), bound: more(bound, less), times: times ? Uint16Array.from(times.values()) : null });

// Searches until it is decided, or takes too long, or another task arrives; then null. Intermediate results are reported.
export const untilSure = async (session, events, { isLeft, hear, tell = found => found, read = found => found, first = FIRST_NODES }) => {
  const until = performance.now() + MOST;
  for (let nodes = first; ;) {
    const from = performance.now(), found = read(session.search(nodes, events)), now = performance.now();
    if (isSure(found) || now > until) return found;
    tell(found);
    if (now - from < STEP) nodes *= 2;
    await hear();
    if (isLeft()) return null;
  }
};

// A timetable whose cost equals the bound is the best, if not the first of that cost, which takes longer to find.
const asBest = found => found.cost !== undefined && BigInt(found.cost) === BigInt(found.bound) ? { ...found, kind: 'optimum' } : found;

// Lets messages in, but not more often than they have to be heard.
const seldom = hear => {
  let heard = performance.now();
  return async () => {
    if (performance.now() - heard < UNHEARD) return;
    heard = performance.now();
    await hear();
  };
};

// Reports the price of each of some minutes, one after another, until another task arrives.
export const tellPrices = async (session, { question, minutes, events }, tell, { isLeft, hear }) => {
  const listen = seldom(hear);
  for (const minute of minutes) {
    const { line, back, less } = OF[question.of](question, minute);
    does(session, [line]);
    try {
      const found = await untilSure(session, events, { isLeft, hear: listen, read: asBest, first: FEW_NODES });
      if (!found) return;
      tell({ price: { minute, ...priceOf(found, less) } });
    } finally {
      does(session, [back]);
    }
    await listen();
    if (isLeft()) return;
  }
  tell({ isDone: true });
};
