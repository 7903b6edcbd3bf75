// The moves of a timetable are shown above the present one before it is accepted or rejected: of one that was found, of a
// variant, and of the nearest one, with the moved events held, which repairs violations.

import { askedNow, askFor } from './asking.js';
import { costMoreText, costName, costText } from '../session/costs.js';
import { display } from '../session/display.js';
import { element, find, say, setText } from '../base/elements.js';
import { isField } from '../forms/fields.js';
import { foundsOf, noteFound } from './founds.js';
import { drawOld, editsToTimes, movesText } from '../draw/moves.js';
import { eventName, minutesText } from '../session/names.js';
import { doStep, eventsMoved, markNow, preview, refresh, timesNow } from '../session/session.js';
import { isTab, showTab } from '../session/tabs.js';
import { askWhy } from './telling.js';
import { stayingEvents } from '../session/trains.js';
import { turned } from '../base/turning.js';
import { countViolated, isMet } from '../base/viewing.js';

// The shown proposal: its edits and words, and the title of the step that accepts it; the result of a search without a proposal,
// otherwise null; and the last list.
let proposed = null, refusal = null, found = null, offered = [];

const moreText = before => {
  if (display.view.cost === null) return `${costName()} not known`;
  return costMoreText(BigInt(display.view.cost) - BigInt(before.cost ?? display.view.cost));
};

// Shows the effect of edits above the present state, which does not change; `told` describes the moves, and `step` is the title
// of accepting them.
const propose = (lines, words, step, isToMeet = true) => {
  const before = display.view.before || display.view;
  refusal = null;
  preview(lines, '', before);
  if (!display.view.isTried || (isToMeet && !isMet(display.view))) {
    refresh();
    return say('What was found does not meet everything: this is a fault of the page.', true);
  }
  proposed = { lines, view: display.view, words: [words, moreText(before)].join('; '), step };
  return tell();
};

// The same by a click; the view with the drawing is brought to the front.
export const see = (...of) => {
  propose(...of);
  if (isTab('compare')) showTab('diagram');
  find('take-proposed').focus();
};

// The same for a timetable that was found.
export const seeTimes = (times, title) => see(editsToTimes(nearer(times)), movesText(nearer(times)), { title });

// Shifted to agree with the one shown.
const nearer = times => turned(times, display.view.before || display.view);

const offer = ({ times, cost }) => {
  const name = cost.toLocaleString('en'), title = `the timetable of ${costText(cost)} is taken over`, isOther = editsToTimes(nearer(times)).length > 0;
  const button = isOther && element('button', { type: 'button', onclick: () => seeTimes(times, title) }, 'See it');
  return element('li', {}, element('b', {}, name), isOther ? ` ${movesText(nearer(times))} ` : ' it is shown', button);
};

// The timetables found for the network shown. While something is tried, the list beside the present one stays.
export const tellOffers = () => {
  const { view } = display, { open } = find('offers');
  if (!view || view.isTried) return;
  const all = foundsOf(markNow()), seen = [all, open, view];
  if (seen.every((each, place) => each === offered[place])) return;
  offered = seen;
  find('offers').hidden = !all.length;
  setText(find('offers').firstElementChild, `${all.length} found timetable${all.length > 1 ? 's' : ''}`);
  find('offered').replaceChildren(...open ? all.map(offer) : []);
};

const proposeNearest = ({ times, kind }, held) => {
  propose(editsToTimes(times), `${movesText(times, held)}${kind === 'optimum' ? '' : '; perhaps not the nearest'}`, { title: 'mended' });
  if (proposed) noteFound(markNow(), { kind: 'stopped', times, cost: proposed.view.cost });
};

const NONE = 'No timetable meets everything with what was moved, and what is to stay, where it is';

const refusalText = ({ kind, event }, most) => {
  if (kind === 'outside') return `${eventName(event)} was moved away from where it is held: let it go first, or undo.`;
  if (kind === 'infeasible') return most === null ? `${NONE}.` : `${NONE} and others moved by at most ${minutesText(most)}.`;
  return 'None was found in time. Let others move less far, or hold more.';
};

const mostMoved = () => find('most-moved').value ? Number(find('most-moved').value) : null;

// Shows the result of the search when it ends, or is stopped; the focus stays where it was.
const end = (held, most, focused) => {
  const isHere = [focused, find('stop'), document.body].includes(document.activeElement);
  if (!found) return;
  if (found.times) proposeNearest(found, held);
  else {
    refusal = { view: display.view, words: refusalText(found, most), held: found.kind === 'infeasible' ? [...held].map(event => [event, timesNow().get(event)]) : null };
    tell();
  }
  if (isHere) find(proposed ? 'take-proposed' : refusal && refusal.held ? 'why-not' : 'mend').focus();
};

// Searches for the nearest timetable, with the moved events held.
export const mend = () => {
  if (askedNow()) return null;
  if (!countViolated(display.view)) return say('Nothing is violated, so there is nothing to mend.', true);
  const held = new Set([...eventsMoved(), ...stayingEvents()]), most = mostMoved(), focused = document.activeElement;
  [proposed, refusal, found] = [null, null, null];
  return askFor({ kind: 'near', times: [...timesNow()], held: [...held], most }, {
    tell: ({ near }) => { found = near; }, end: () => end(held, most, focused),
  });
};

const tell = () => {
  const { view } = display, isProposed = Boolean(proposed) && proposed.view === view, isRefused = Boolean(refusal) && refusal.view === view;
  find('mending').hidden = isProposed || Boolean(view.isTried) || !countViolated(view);
  find('proposed').hidden = !isProposed && !isRefused;
  setText(find('proposed-told'), isProposed ? proposed.words : isRefused ? refusal.words : '');
  for (const name of ['take-proposed', 'leave-proposed']) find(name).hidden = !isProposed;
  find('why-not').hidden = !isRefused || !refusal.held;
  tellOffers();
  drawOld(view);
};

export const proposingPanel = { update: tell };

const take = () => {
  const { lines, words, step } = proposed;
  if (doStep(lines, { ...step, isFound: true })) say(`${step.title}: ${words}`);
  find('optimum').focus();
};

const leave = () => {
  refresh();
  say('The proposal is left, and nothing has changed.');
  find(find('mending').hidden ? 'optimum' : 'mend').focus();
};

export const startProposing = () => {
  for (const [name, act] of Object.entries({ 'mend': mend, 'take-proposed': take, 'leave-proposed': leave, 'why-not': () => askWhy(refusal.held) })) {
    find(name).addEventListener('click', act);
  }
  find('offers').addEventListener('toggle', tellOffers);
  window.addEventListener('keydown', event => {
    if (event.key.toLowerCase() !== 'm' || event.ctrlKey || event.metaKey || event.altKey || isField(event.target) || document.querySelector('dialog[open]')) return;
    event.preventDefault();
    mend();
  });
};
