// Why no timetable meets everything: a minimal set of members that cannot be met together, with its repairs. First members
// outside the conflict are dropped by bisection, as long as an empty domain shows that the rest is infeasible; then by
// searches. The Python package does the same over its session; this is the page's own, since a page can only use its module.

import { findMends } from './mending.js';
import { byDomains, byMember, bySearch, memberKey, prefer, probeOf } from './probing.js';
import { shapeOf } from './shapes.js';

const FIRST_NODES = 500, MORE = 4;

// The answer for a network: `possible`, `undecided` or `conflict`. The conflict has as few as possible of the members in `kept`,
// by their keys, and no repair changes one; no repair lowers the least minutes of an activity unless it `canLower` them. It is
// searched for first at the events at which a timetable violates something.
export const findWhy = (network, { nodes = 2000, seconds = 10, kept = new Set(), canLower = false, violated = [] } = {}) => {
  const probe = { ...probeOf(network), kept, canLower }, until = performance.now() + 1000 * seconds;
  if (isSeenByDomains(probe, violated, until)) return conflictOf(probe, leastOf(probe, members => byDomains(probe, members)), nodes, seconds);
  for (let count = FIRST_NODES; ; count *= MORE) {
    const verdict = bySearch(probe, probe.members, count);
    if (verdict === 'possible') return { kind: 'possible' };
    if (verdict === 'infeasible') {
      const most = Math.max(nodes, count);
      return conflictOf(probe, leastOf(probe, members => bySearch(probe, members, most) === 'infeasible'), most, seconds);
    }
    if (performance.now() > until) return { kind: 'undecided', nodes: count };
  }
};

// Whether a domain is empty, with some event of each free part held; that event is held first from then on.
const isSeenByDomains = (probe, violated, until) => {
  for (const event of new Set([null, ...violated, ...probe.network.events])) {
    prefer(probe, event);
    if (byDomains(probe, probe.members)) return true;
    if (performance.now() > until) break;
  }
  prefer(probe, null);
  return false;
};

// The minimal set by a test: with as few members as possible that may change, and then as few of the others.
const leastOf = ({ members, kept }, test) => {
  const hard = members.filter(member => kept.has(memberKey(member))), soft = members.filter(member => !hard.includes(member));
  const needed = least(soft, hard, test);
  return [...needed, ...least(hard, needed, test)];
};

// Members that are infeasible together with the background, all of whose members are required.
const least = (members, background, test) => !members.length || test(background) ? [] : halves(background, false, members, test);

const halves = (background, isGrown, members, test) => {
  if (isGrown && test(background)) return [];
  if (members.length === 1) return members;
  const middle = Math.floor(members.length / 2), first = members.slice(0, middle), second = members.slice(middle);
  const needed = halves([...background, ...first], true, second, test);
  return [...halves([...background, ...needed], needed.length > 0, first, test), ...needed];
};

// The members without those that can be omitted one by one: no set with one member less is found to be infeasible.
const settled = (members, test) => {
  let kept = members;
  // A member that was needed beside another one, dropped later, may be unnecessary now, so the last round changes nothing.
  for (let before = null; before === null || kept.length < before.length;) {
    before = kept;
    for (const member of before) {
      const without = kept.filter(each => each !== member);
      if (test(without)) kept = without;
    }
  }
  return kept;
};

// The answer for a set; searches see more than domains, so some of its members may turn out to be unnecessary.
const conflictOf = (probe, found, nodes, seconds) => {
  const isInfeasible = members => bySearch(probe, members, nodes) === 'infeasible';
  const members = settled(found, isInfeasible).sort(byMember);
  const undecided = members.filter(member => bySearch(probe, members.filter(each => each !== member), nodes) !== 'possible');
  const shape = shapeOf(members, probe.network);
  const mends = findMends(probe, members, shape, nodes, performance.now() + 1000 * seconds);
  members.forEach(member => { member.isKept = probe.kept.has(memberKey(member)); });
  return { kind: 'conflict', members, undecided, shape, mends, nodes };
};
