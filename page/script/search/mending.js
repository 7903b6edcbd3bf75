// The least widening of each member of a conflict that repairs it.

import { byDomains, byMember, bySearch, memberKey, widened } from './probing.js';

const GREATEST_BOUND = 1000000;
const RANKS = { possible: 0, untried: 1, undecided: 2, infeasible: 3 };

const byMinutes = (one, other) => one.minutes - other.minutes || byMember(one.member, other.member);

// The repairs of a conflict, best first; until a time, each is also tried in the whole network.
export const findMends = (probe, members, shape, nodes, until) => {
  const soft = members.filter(member => !probe.kept.has(memberKey(member)));
  const found = soft.map(member => mendOf(probe, members, member, shape, nodes)).filter(Boolean).sort(byMinutes);
  for (const mend of found) mend.whole = performance.now() < until ? wholeWith(probe, mend, nodes) : 'untried';
  return found.sort((one, other) => RANKS[one.whole] - RANKS[other.whole] || byMinutes(one, other));
};

// The least widening of a member, later if earlier takes as many minutes; null if none is found to repair it. The least minutes
// of an activity stay, unless the probe permits repairs to lower them.
const mendOf = (probe, members, member, shape, nodes) => {
  const { period } = probe.network;
  let best = null;
  for (const isLater of probe.canLower || member.of === 'event' ? [true, false] : [true]) {
    const most = best ? best.minutes - 1 : mostCount(member, period);
    const holds = count => {
      const changed = members.map(each => each === member ? { ...member, bounds: widened(member, count, isLater, period) } : each);
      return bySearch(probe, changed, nodes) === 'possible';
    };
    const minutes = leastNumber(Math.min(most, roomOf(member, isLater)), holds, guessOf(member, shape, isLater));
    if (minutes !== null) best = { member, minutes, isLess: !isLater && member.of === 'activity', after: widened(member, minutes, isLater, period) };
  }
  return best;
};

const mostCount = ({ of, bounds }, period) => of === 'event' ? period - bounds.length : period - 1 - (bounds.upper - bounds.lower);

const roomOf = ({ of, bounds }, isLater) => of === 'event' ? Infinity : isLater ? GREATEST_BOUND - bounds.upper : loweredBy(bounds);

// By how many minutes the minimum can be lowered; it does not fall below 0 unless it was there.
const loweredBy = ({ lower }) => lower >= 0 ? lower : GREATEST_BOUND + lower;

// The minutes by which a circle or a path misses the required number; 1 if it is neither.
const guessOf = ({ of, number }, shape, isLater) => {
  if (!shape) return 1;
  const [[, below], [above]] = shape.wanted, step = shape.steps.find(({ activity }) => of === 'activity' && activity.number === number);
  const isLonger = of === 'event' ? isLater === (number === shape.start) : step && !step.isForward ? !isLater : isLater;
  return isLonger ? above - shape.most : shape.least - below;
};

const wholeWith = (probe, { member, after }, nodes) => {
  const whole = probe.members.map(each => each.of === member.of && each.number === member.number ? { ...each, bounds: after } : each);
  return byDomains(probe, whole) ? 'infeasible' : bySearch(probe, whole, nodes);
};

// The least number from 1 to a limit for which a test holds, if it holds for all greater ones too. The guess is tried
// first; if it is right, two tests are enough. Null if the test fails at the limit.
const leastNumber = (most, holds, guess) => {
  let low = 0, high = most + 1, wanted = guess;
  while (high - low > 1) {
    let middle = Math.floor((low + high) / 2);
    if (low < wanted && wanted < high) middle = wanted;
    else if (wanted === high) {
      // The guess passes; if it is the least number, the one below fails.
      middle = wanted - 1;
      wanted = 0;
    }
    if (holds(middle)) high = middle;
    else low = middle;
  }
  return high <= most ? high : null;
};
