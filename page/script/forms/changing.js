// The effect of a step: the cost and the number of violations, compared with the state before it.

import { costMoreText } from '../session/costs.js';
import { find, say } from '../base/elements.js';
import { leftText } from './moving.js';
import { session } from '../session/session.js';
import { untimedText } from '../base/timed.js';
import { countViolated } from '../base/viewing.js';

let opened = null, settled = null, drawn = null, before = null;

// A step of a drag is compared with the state at its start, and any other state with the one shown before it.
const follow = view => {
  drawn = view;
  before = opened === session.opened ? settled : null;
  opened = session.opened;
  if (!view.isTried) settled = view;
};

// The difference of a number between two views, either of which may be a BigInt; null if one is unknown.
const moreOf = (view, numberOf) => {
  const [now, then] = [view, before].map(each => each && numberOf(each));
  return now === null || then === null ? null : BigInt(now) - BigInt(then);
};
const costMore = view => moreOf(view, ({ cost }) => cost);
const violatedMore = view => moreOf(view, countViolated);

const worded = more => more ? `${(more < 0n ? -more : more).toLocaleString('en')} ${more < 0n ? 'less' : 'more'}` : 'as before';

// The text below a figure: its change, or otherwise its usual text.
const note = (name, view, more, words) => {
  const { classList } = find(`figure-${name}`);
  classList.toggle('more', more > 0n);
  classList.toggle('less', more < 0n);
  return more || (view.isTried && more !== null) ? worded(more) : words;
};
export const costNote = view => note('cost', view, costMore(view), 'less is better');
export const violatedNote = (view, words) => {
  const change = note('violations', view, violatedMore(view), '');
  return change ? `${words.slice(0, 1)} ${change}` : words;
};

// The same in words, for a step that has a title.
const changesText = view => {
  const cost = costMore(view), count = countViolated(view);
  const violated = count ? `${count} violated, ${worded(violatedMore(view))}` : 'nothing is violated';
  return [costMoreText(cost), violated, leftText(view), untimedText(view)].filter(Boolean).join('; ');
};

export const changingPanel = {
  update: view => {
    if (view === drawn) return;
    follow(view);
    if (view.title) say(`${view.title}: ${changesText(view)}`);
  },
};
