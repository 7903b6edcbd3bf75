// What would help: the best timetable with each of some spans wider, one at a time, compared with the best one of the unchanged
// network. It starts with the known timetable; each search has its time, and its result then is reported.

import { readNetwork } from '../base/network.js';
import { FIRST_NODES, paced } from './pacing.js';
import { sessionFrom } from './priming.js';
import { exactly, isSure } from '../base/replies.js';

// The greatest nodes and milliseconds of a search: the first one, of the unchanged network; and each other one if that was
// decided, and if it was not.
const MOST_NODES = 100000, FIRST_TIME = 10000, SURE_TIME = 30000, TIME = 2000;

/** The result of a search in its time; each step is reported.
 * @param {function(any): any} tell */
const bestWithin = (session, events, time, tell) => {
  const until = performance.now() + time;
  for (let nodes = FIRST_NODES, gone = 0; ;) {
    const from = performance.now(), found = session.search(nodes, events), now = performance.now();
    gone += nodes;
    tell(found);
    if (isSure(found) || gone >= MOST_NODES || now > until) return found;
    nodes = Math.min(paced(nodes, now - from, found.goesOn), MOST_NODES - gone);
  }
};

const isBetter = (found, before) => isSure(found) || (Boolean(found.times) && !(before.times && before.cost <= found.cost));

/** A timetable that was found with a wider span, as one of the unchanged network; none if it needs the additional minutes.
 * @param {any} network
 * @param {any} question
 * @param {any} found */
export const asItIs = ({ period, activities }, { number, after, paid }, { times, cost }) => {
  const { first, last, lower, upper } = activities.get(number), more = (times.get(last) - times.get(first) - after.lower) % period;
  const had = after.lower + (more + period) % period;
  return had < lower || had > upper ? { kind: 'none' } : { kind: 'stopped', cost: exactly(String(BigInt(cost) - BigInt(paid))), times };
};

// Reports the result of each question, and the best timetable of the unchanged network, at first and when it gets better.
export const tellGains = (script, { questions, best, events }, tell) => {
  const network = readNetwork(script);
  let before = best || { kind: 'none' }, session = sessionFrom(script, before.times);
  const learn = found => {
    if (isSure(before) || !isBetter(found, before)) return;
    before = found;
    tell({ gain: { found } });
  };
  // A session that reached an optimum starts with that itself.
  const learnBy = act => {
    const { cost } = before;
    act();
    if (isSure(before) || before.cost === cost) return;
    session.close();
    session = sessionFrom(script, before.times);
  };
  const ask = ({ line, back, ...question }) => {
    session.ask(line);
    const found = bestWithin(session, events, isSure(before) ? SURE_TIME : TIME, () => {});
    session.ask(back);
    if (found.times) learnBy(() => learn(asItIs(network, question, found)));
    return { ...question, line, found };
  };
  if (!isSure(before)) learnBy(() => bestWithin(session, events, FIRST_TIME, learn));
  tell({ gain: { found: before } });
  questions.forEach((question, place) => tell({ gain: ask(question), isDone: place === questions.length - 1 }));
  session.close();
};
