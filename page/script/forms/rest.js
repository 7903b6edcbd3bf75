// The rest of a timetable follows a hand, if that is ticked: all events except those that are dragged, or were moved by a key,
// have the times of the best timetable, or of the nearest one. A separate Worker searches for it.

import { display } from '../session/display.js';
import { timeEdits } from '../base/edits.js';
import { find, sayMore } from '../base/elements.js';
import { componentsOf } from '../base/network.js';
import { doStep, eventsMoved, extendStep, markNow, present, preview, stepNow, timesNow } from '../session/session.js';
import { stayingEvents } from '../session/trains.js';
import { turned } from '../base/turning.js';
import { soleWorker } from '../base/workers.js';

const follower = soleWorker(), NONE = { kind: '', edits: [], mode: '' };

// The hand's present action, null if there is none, with the state shown before it and the rest shown with it; and the last result.
let hand = null, last = NONE, hear = () => {};

export const hearRest = listener => { hear = listener; };

const mode = () => find('always').checked ? find('rest').value : '';

const WHY = {
  infeasible: 'no timetable has it there', outside: 'something is moved away from where it is held', none: 'no timetable is found with it there',
};
const WORDS = { asked: 'the rest is looked for …', best: 'the best with it there', near: 'the nearest with it there', beside: 'the nearest with it there, as nothing else is held' };

// The last result beside the hand; '' if it does nothing.
export const restText = () => WHY[last.kind] ? `✕ ${WHY[last.kind]}` : WORDS[last.kind] || (last.kind ? `${last.kind === 'stopped' ? 'perhaps ' : ''}${WORDS[last.mode]}` : '');

const timesIn = edits => new Map(edits.filter(({ kind }) => kind === 'time').map(({ numbers }) => numbers));

const restAt = now => {
  last = now;
  hear();
};

// Whether only the hand holds what is connected to it: the best would then be all of that, shifted with the hand.
const isTurned = (own, held) => {
  const { events, activities, windows } = display.view.network, component = [...componentsOf(events, activities.values())].find(each => each.some(event => own.has(event)));
  return Boolean(component) && !component.some(event => windows.has(event) || (held.has(event) && !own.has(event)));
};

// The hand's changes, with the times of its events, and the events that it has moved before or that are to stay.
const questionOf = edits => {
  const times = timesNow(), stay = [...eventsMoved(), ...stayingEvents()].filter(event => times.has(event)), others = edits.filter(({ kind }) => kind !== 'time');
  const held = new Map(stay.map(event => [event, times.get(event)]));
  const own = timesIn(edits), followed = mode() === 'best' && isTurned(own, held) ? 'beside' : mode();
  for (const [event, time] of own) held.set(event, time);
  return { held, followed, asked: { kind: 'hand', mark: markNow(), ...present(), mode: followed === 'best' ? 'best' : 'near', edits: others.map(({ line }) => line), held: [...held], times: [...new Map([...times, ...held])], events: display.view.network.events } };
};

// The edits that set all other events, shifted as a whole to the times shown if nothing holds them.
const editsTo = (found, { held, asked }) => {
  const times = timesNow(), { network } = display.view, windows = new Map([...network.windows, ...held]);
  const others = asked.mode === 'best' ? turned(found, { network: { ...network, windows }, times }) : found;
  return timeEdits([...others].filter(([event, time]) => !held.has(event) && times.get(event) !== time));
};

// Requests the rest; `tell` receives the results, the last one with `isDone`.
const ask = (question, tell) => {
  restAt({ ...NONE, kind: 'asked' });
  follower.ask(question.asked, ({ near, isDone }) => {
    restAt({ kind: near ? near.kind : 'none', edits: near && near.times ? editsTo(near.times, question) : [], mode: question.followed });
    tell(last, isDone);
  });
};

const draw = () => {
  const { edits, title, rest, before } = hand, own = timesIn(edits);
  const others = edits.length ? rest.edits.filter(({ numbers }) => !own.has(numbers[0])) : [];
  preview([...edits, ...others], title, others.length ? before : null);
};

// Requests the rest for the hand's place. A result for an earlier place is shown too, and then the next place is requested.
const askForHand = () => {
  const { edits, question } = hand;
  if (!edits.length) return restAt(NONE);
  return ask(question, (found, isDone) => {
    if (!hand) return;
    const isHere = hand.edits === edits;
    if (found.edits.length || isDone) Object.assign(hand, { rest: found, isKnown: isHere });
    draw();
    if (!isHere) askForHand();
  });
};

// Shows the effect of a drag's edits, with the rest beside it: until that is known, the last rest.
export const showHand = (edits, title) => {
  if (!mode()) return preview(edits, title);
  const isAsked = hand && follower.of(), { before, rest } = hand || { before: display.view.before || display.view, rest: NONE };
  hand = { edits, title, before, rest, isKnown: false, question: questionOf(edits) };
  draw();
  return isAsked ? null : askForHand();
};

// The hand has released, and nothing is done.
export const leaveHand = () => {
  follower.leave();
  [hand, last] = [null, NONE];
};

const FOLLOWS = ', and the rest follows';

const sayWhy = ({ kind }) => WHY[kind] && sayMore(`the rest stays: ${WHY[kind]}`);

// The step of a hand is done: the rest follows as soon as it is known, as a part of that step, unless another one came.
const followLater = question => {
  const step = stepNow();
  ask(question, (found, isDone) => {
    if (!isDone || stepNow() !== step || display.view.isTried) return;
    restAt(NONE);
    if (found.edits.length) extendStep(found.edits, `${step.title}${FOLLOWS}`);
    else sayWhy(found);
  });
};

// Does some edits as one step of a hand, which the rest follows.
export const doByHand = (edits, title = '') => {
  const taken = hand && hand.edits === edits && hand.isKnown ? hand.rest : null, question = mode() && !taken ? questionOf(edits) : null;
  leaveHand();
  const isFollowed = taken && taken.edits.length > 0;
  if (!doStep(isFollowed ? [...edits, ...taken.edits] : edits, { title, own: edits, also: isFollowed ? FOLLOWS : '' })) return;
  if (taken) sayWhy(taken);
  if (question) followLater(question);
};

export const endRest = () => {
  follower.end();
  leaveHand();
};
