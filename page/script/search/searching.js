// Searches for the best timetable. Their results are shown while they run, adopted by a click at any time, and continued.

import { askedNow, askFor, hearAsked, leaveAsked, stopAsking } from './asking.js';
import { costText } from '../session/costs.js';
import { display } from '../session/display.js';
import { timeEdits } from '../base/edits.js';
import { find, lead, say, sayMore, setText } from '../base/elements.js';
import { betterFound, comparedText, foundText, tookText } from './found.js';
import { bestKnown, noteFound } from './founds.js';
import { seeTimes, tellOffers } from './proposing.js';
import { isSure } from '../base/replies.js';
import { doStep, markNow } from '../session/session.js';
import { turned } from '../base/turning.js';

// The greatest number of seconds that can be requested.
export const EVERY_ATTEMPT = 1e12;

// The results of searches of one network, by its mark; whether they were offered; nodes and seconds before the running one.
let found = null, wasOffered = false, before = { nodes: 0, seconds: 0 };

// They are shown as long as their network is shown, with any times.
const isOfNow = () => Boolean(found) && found.mark === markNow();

// A search that was stopped, or ended undecided, is resumed.
const search = most => {
  if (!isOfNow()) found = { kind: 'none', nodes: 0, seconds: 0, mark: markNow() };
  before = isSure(found) ? { nodes: 0, seconds: 0 } : { nodes: found.nodes, seconds: found.seconds };
  found = { ...found, isStopped: true };
  const question = { kind: 'search', most, best: bestKnown(), events: display.view.network.events };
  askFor(question, { tell: hear, end });
};

const hear = ({ found: now, nodes, isDone }) => {
  const seconds = before.seconds + askedNow().seconds;
  found = { ...betterFound(found, { ...now, nodes: before.nodes + nodes, seconds }), mark: found.mark, isStopped: !isDone };
  noteFound(found.mark, found);
  if (isSure(found) && !isDone) stopAsking();
};

// The results of searches of the network shown; null if there was none.
export const foundNow = () => isOfNow() ? found : null;

// The result of another search of it.
export const learnFound = now => {
  if (now.mark !== markNow()) return;
  found = { ...isOfNow() ? betterFound(found, now) : now, mark: now.mark, isStopped: isOfNow() && found.isStopped };
  noteFound(found.mark, found);
  tell();
};

const end = seconds => {
  if (!found) return;
  if (found.isStopped && !isSure(found)) found = { ...found, seconds: before.seconds + seconds };
  tell();
  lead(find(found.kind === 'infeasible' ? 'ask-mends' : 'adopt'));
};

// Another network replaces the one shown.
const begin = () => {
  found = null;
  wasOffered = false;
  stopAsking();
};

// The seconds that pass, or those that a search took.
const clockText = (asked, isSearching) => {
  if (asked) return `${Math.floor(asked.seconds + (isSearching ? before.seconds : 0))} s`;
  return isOfNow() ? tookText(found) : '';
};

const BUTTONS = ['optimum', 'try', 'ask-why', 'ask-gains', 'mend'];

const tellButtons = asked => {
  const isOpen = isOfNow() && !isSure(found) && !asked;
  setText(find('optimum'), isOpen ? 'Go on' : 'Find the optimum');
  find('ask-mends').hidden = Boolean(asked) || !isOfNow() || found.kind !== 'infeasible';
  find('stop').hidden = !asked;
  for (const name of BUTTONS) find(name).disabled = Boolean(asked);
};

// The Worker's present task, or the results of searches of the network.
const tell = () => {
  const asked = askedNow(), isSearching = Boolean(asked) && asked.kind === 'search', isOffered = isOfNow() && Boolean(found.times);
  const isTold = isOfNow() && (isSearching ? found.nodes > 0 : !asked);
  setText(find('clock'), clockText(asked, isSearching));
  setText(find('found'), isTold ? foundText(found) : asked ? asked.busy : '');
  find('found').classList.toggle('alarm', isTold && found.kind === 'infeasible');
  const compared = isOffered ? comparedText(found, display.view, isSearching) : { text: '', adopt: '' };
  setText(find('compared'), compared.text);
  find('adopt').hidden = !compared.adopt;
  find('see').hidden = !compared.adopt || !display.view.times.size;
  if (compared.adopt) setText(find('adopt'), compared.adopt);
  tellButtons(asked);
  tellOffers();
  wasOffered = isOffered;
};

// Times are set by lines of their own, so that playing these lines again searches nothing.
const adopt = () => {
  const { cost, kind } = found;
  if (doStep(timeEdits(turned(found.times, display.view)), { isFound: true })) say(`taken over: ${kind === 'optimum' ? 'the optimum' : 'the best that was found'}, ${costText(cost)}`);
  lead(find(askedNow() ? 'stop' : 'optimum'));
};

// A step ends the tasks about the network before it, and its results return when the step is undone.
export const searchingPanel = {
  begin,
  update: () => {
    const isLeft = wasOffered && !isOfNow(), left = leaveAsked();
    const kept = isLeft ? `the timetable of ${costText(found.cost)} that was found before it is offered again after Undo` : '';
    tell();
    if (left || kept) sayMore([left, kept].filter(Boolean).join('; '));
  },
};

export const startSearching = () => {
  hearAsked(tell);
  find('optimum').addEventListener('click', () => search(EVERY_ATTEMPT));
  find('try-form').addEventListener('submit', event => {
    event.preventDefault();
    search(Number(find('nodes').value));
  });
  find('adopt').addEventListener('click', adopt);
  find('see').addEventListener('click', () => seeTimes(found.times, 'taken over'));
};
