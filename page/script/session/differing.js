// The differences of two networks with their timetables, in the words of the package's `compare`: network, times, cost by kind.

import { within } from './display.js';
import { noLabels } from '../base/labels.js';
import { activityName, clock, eventName, lengthText, minutesText, windowText } from './names.js';
import { turnsOf } from '../base/turning.js';
import { changesOf } from './wording.js';

const byNumber = (one, other) => one - other;
const both = (one, other) => [...new Set([...one, ...other])].sort(byNumber);

const activityChanges = (before, after) => both(before.activities.keys(), after.activities.keys()).map(number => {
  const [old, now] = [before, after].map(({ activities }) => activities.get(number));
  const change = !old ? 'added' : !now ? 'dropped' : changesOf(old, now);
  return change && { event: (now || old).first, text: `${activityName(now || old)}: ${change}` };
});

const heldText = ({ windows, period }, event) => windows.has(event) ? `held ${windowText(windows.get(event), period)}` : 'not held';

const eventChanges = (before, after) => both(before.events, after.events).map(event => {
  const [wasThere, isThere] = [before, after].map(({ known }) => known.has(event)), [old, now] = [before, after].map(each => heldText(each, event));
  const change = !wasThere ? 'added' : !isThere ? 'dropped' : old === now ? '' : `${now}, was ${old}`;
  return change && { event, text: `${eventName(event)}: ${change}` };
});

const networkChanges = (before, after) => {
  const [old, now] = [before, after].map(({ network }) => ({ ...network, known: new Set(network.events) }));
  const period = old.period === now.period ? '' : { text: `period ${lengthText(now.period)}, was ${lengthText(old.period)}` };
  return [...activityChanges(old, now), ...eventChanges(old, now), period].filter(Boolean);
};

// By how many minutes a time moved, the shorter way; later if both ways are equally long.
const movedBy = (old, now, period) => {
  const later = (((now - old) % period) + period) % period;
  return 2 * later <= period ? later : later - period;
};

// The same for all events of trains: those that move with a train's first moved event are reported in its direction.
const movesOf = (old, now, { network: { period }, trains }) => {
  const shared = [...now.keys()].filter(event => old.has(event)), moves = new Map(shared.map(event => [event, movedBy(old.get(event), now.get(event), period)]));
  for (const { events } of trains) {
    const lead = events.map(event => moves.get(event)).find(Boolean) || 0;
    for (const event of events.filter(each => moves.has(each))) {
      const minutes = moves.get(event), off = minutes - lead;
      moves.set(event, 2 * off > period ? minutes - period : 2 * off < -period ? minutes + period : minutes);
    }
  }
  return moves;
};

const signed = minutes => `${minutes > 0 ? '+' : '−'}${minutesText(Math.abs(minutes))}`;

const timeOf = (times, event) => times.has(event) ? clock(times.get(event)) : 'no time';

// The times after the change, after shifting what nothing holds to agree with those before, and what was shifted.
const turnedAfter = (before, { network, times }) => {
  const { period } = network, isAlike = before.network.period === period, made = new Map(times);
  const turns = isAlike ? turnsOf(network, times, before.times).filter(({ events }) => events.length > 1) : [];
  const texts = turns.map(({ events, turn }) => {
    for (const event of events) made.set(event, (times.get(event) + turn) % period);
    return { event: events[0], text: `${events.length} times that nothing holds, as of ${eventName(events[0])}, turned by ${signed(movedBy(0, turn, period))} to agree` };
  });
  return { made, texts };
};

// The times that differ, or that all of them moved alike; what nothing holds is first shifted to agree.
const timeChanges = (before, after) => {
  const old = before.times, { made, texts } = turnedAfter(before, after), moves = movesOf(old, made, after), [first = 0] = moves.values();
  if (first && moves.size > 1 && [...moves.values()].every(each => each === first)) return [...texts, { text: `all ${moves.size} times moved by ${signed(first)}` }];
  return [...texts, ...both(old.keys(), made.keys()).filter(event => moves.get(event) !== 0).map(event => {
    const by = moves.has(event) ? ` (${signed(moves.get(event))})` : '';
    return { event, text: `${eventName(event)}: ${timeOf(old, event)} to ${timeOf(made, event)}${by}` };
  })];
};

// What the activities of each kind cost together.
const costsOf = ({ network, tensions, labels }) => {
  const found = new Map();
  for (const [number, { slack }] of tensions) {
    const kind = labels.kinds.get(number) || 'activity';
    found.set(kind, (found.get(kind) || 0n) + BigInt(slack) * BigInt(network.activities.get(number).weight));
  }
  return found;
};

// The cost by kind, dearest after the change first, and in all; null if a time is missing.
export const costsBeside = (before, after) => {
  if (before.missing || after.missing) return null;
  const [old, now] = [before, after].map(costsOf), at = (costs, kind) => costs.get(kind) || 0n;
  const kinds = [...new Set([...old.keys(), ...now.keys()])];
  kinds.sort((one, other) => Number(at(now, other) - at(now, one)) || (one < other ? -1 : 1));
  return [...kinds.map(kind => [kind, at(old, kind), at(now, kind)]), ['in all', BigInt(before.cost), BigInt(after.cost)]];
};

// All differences except the cost; names are those after the change, or otherwise those before.
export const differences = (before, after) => {
  const labels = noLabels();
  for (const kind of ['events', 'kinds']) labels[kind] = new Map([...before.labels[kind], ...after.labels[kind]]);
  return within(after, () => ({ network: networkChanges(before, after), times: timeChanges(before, after) }), labels);
};
