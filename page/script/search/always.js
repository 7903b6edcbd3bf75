// Always the best: with a tick each step is followed by a search in a Worker of its own, and the page shows how far its timetable
// is above the best, beside the rest that follows a hand.

import { display } from '../session/display.js';
import { find, findAll, say, setText } from '../base/elements.js';
import { aboveText } from './found.js';
import { bestKnown } from './founds.js';
import { isSure } from '../base/replies.js';
import { endRest, hearRest, restText } from '../forms/rest.js';
import { EVERY_ATTEMPT, foundNow, learnFound } from './searching.js';
import { markNow, networkNow, present } from '../session/session.js';
import { soleWorker } from '../base/workers.js';

// The greatest seconds of a step's search; `ended` is the mark of the network that was searched last.
const MOST_SECONDS = 60, searcher = soleWorker();
let ended = null;

const isOn = () => find('always').checked;

const hearFound = (mark, from) => ({ found, nodes, fault, isDone }) => {
  const seconds = (performance.now() - from) / 1000;
  if (fault) say(fault, true);
  if (isDone || seconds > MOST_SECONDS) {
    searcher.leave();
    ended = mark;
  }
  if (found) learnFound({ ...found, nodes, seconds, mark });
  tell();
};

const search = events => {
  const mark = markNow(), now = foundNow(), isLeft = mark === ended || (now && isSure(now));
  if (searcher.of() && (isLeft || searcher.of().mark !== mark)) searcher.leave();
  if (isLeft || searcher.of()) return;
  searcher.ask({ kind: 'search', mark, ...present(), most: EVERY_ATTEMPT, best: bestKnown(), events }, hearFound(mark, performance.now()));
};

const tell = () => {
  const found = foundNow(), isOfNow = isOn() && display.view.network === networkNow(), above = !isOfNow ? '' : found ? aboveText(found, display.view) : 'the best is looked for …';
  setText(find('above'), [restText(), above].filter(Boolean).join('; '));
};

const update = view => {
  find('rests').hidden = !isOn();
  if (isOn() && !view.isTried) search(view.network.events);
  tell();
};

export const alwaysPanel = { update };

const choose = () => {
  if (!isOn()) {
    searcher.end();
    endRest();
  }
  update(display.view);
};

export const startAlways = () => {
  hearRest(tell);
  for (const hand of findAll('#always, #rest')) hand.addEventListener('change', choose);
};
