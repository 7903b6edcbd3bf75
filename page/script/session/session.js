// The session: the opened files, the steps since, and which of them are done. The replies of a session of the program are shown,
// which is kept open and receives only the lines of each step; it can be reopened from the base and all lines.

import { beginDisplay, display, setChosen, setChosenLine, setLabels, setView, within } from './display.js';
import { editsOf } from '../base/edits.js';
import { say } from '../base/elements.js';
import { follow, neededBefore } from '../base/following.js';
import { keepingKeys } from '../base/keeping.js';
import { noLabels } from '../base/labels.js';
import { labelOf } from './names.js';
import { does, look, openFirst, openSession, prepared, RunFault } from '../base/running.js';
import { ofTimed } from '../base/timed.js';
import { linesOf, trainsOf, twinsOf } from './trains.js';
import { isInfeasible } from '../base/viewing.js';
import { countText, editsText, faultInWords, refusalText } from './wording.js';

const state = { opened: null, steps: [], place: 0 };

// The same, read-only.
export const session = Object.freeze({
  get opened() { return state.opened; },
  get steps() { return state.steps; },
  get place() { return state.place; },
});

// The program's session, null if it must be reopened; its last replies, on its present state; and the lines of a drag's step
// that it has received beyond those of the steps, with those that undo them, null if there are none.
let kept = null, latest = null, tried = null;
// Its replies on the present step.
let settled = null;

// The base, and the lines of the steps that are done since.
export const present = () => ({ base: state.opened.base, lines: journal() });

export const timesNow = () => settled.times;
export const networkNow = () => settled.network;

// A mark of the network shown, which returns with each step that changed it.
let last = 0;
export const markNow = () => state.place ? state.steps[state.place - 1].mark : state.opened.mark;
const markAfter = (network, before, mark) => network === before ? mark : last += 1;

const NO_STEPS = { steps: [], labels: null };

// The views of earlier steps in a session that repeats them, each with its lines and its title, and all with the same names.
// Raises RunFault if a line is refused.
const doneAgain = (opened, first, { steps, labels }, mark) => {
  let [now, at] = [first, mark];
  const made = steps.map(({ lines, title }) => {
    const edits = editsOf(lines);
    does(opened, lines);
    const after = follow(now, edits);
    at = markAfter(after.network, now.network, at);
    now = { network: after.network, times: after.times };
    return { edits, back: after.back, mark: at, title, labels };
  });
  return { steps: made, now };
};

// A session of a base that has repeated earlier steps, and its replies. Raises RunFault, in words.
const openedWith = (base, labels, again, mark) => {
  try {
    const { session: opened, network, times } = openFirst(base);
    const made = prepared(opened, () => {
      const { now, steps } = doneAgain(opened, { network, times }, again, mark);
      return { steps, latest: { ...now, ...look(opened, now.network) } };
    });
    return { ...made, opened, network, times };
  } catch (fault) {
    throw faultInWords(fault, base.period, labels);
  }
};

// Opens a base with its labels and places, repeats earlier steps, and shows it. Raises RunFault, and then nothing has changed.
export const openBase = (base, { title = '', labels = noLabels(), places = new Map(), again = NO_STEPS } = {}) => {
  const mark = last += 1, { opened, network, times, steps, latest: made } = openedWith(base, labels, again, mark);
  settled = made;
  close();
  kept = opened;
  Object.assign(state, { opened: { base, times, title, labels, network, mark }, steps, place: steps.length });
  beginDisplay(steps.length ? again.labels : labels, places);
  panels.forEach(({ begin }) => begin && begin());
  show({ ...settled });
};

const close = () => {
  if (kept) kept.close();
  [kept, latest, tried] = [null, settled, null];
};

// Uses the session, which is opened at the present step if it is not open. After a fault it is reopened, so that nothing is
// lost; if it was out of memory, the use is repeated once at once.
const withSession = (act, isAgain = false) => {
  try {
    const { base, lines } = present();
    kept = kept || openSession(base, [...base.setup, ...lines]);
    return act();
  } catch (fault) {
    close();
    if (fault.isWanting && !isAgain) return withSession(act, true);
    throw fault;
  }
};

// The same; a fault is reported, and null returned.
const toldWith = act => {
  try {
    return withSession(act);
  } catch (fault) {
    if (!(fault instanceof RunFault)) throw fault;
    say(fault.message, true);
    return null;
  }
};

// Sends some edits to the session. If one is refused, those before it are undone, and the refusal is returned; otherwise ''.
const refusalOf = edits => {
  for (const [place, { line }] of edits.entries()) {
    const [reply] = kept.ask(line);
    if (reply === 'ok') continue;
    for (const each of follow(latest, edits.slice(0, place)).back) kept.ask(each.line);
    return refusalText(edits[place], reply, latest.network);
  }
  return '';
};

// The replies of the session after some edits, which it has made; only those that may have changed are queried.
const lookAfter = edits => {
  const { network, times, questions } = follow(latest, edits);
  latest = { ...latest, network, times, ...look(kept, network, questions) };
  return latest;
};

// Makes the session try some edits after the present step, instead of those tried before; false if one is refused, which is
// reported, and then nothing has changed.
const tries = more => toldWith(() => {
  const edits = [...tried ? neededBefore(tried.back, more) : [], ...more], refusal = refusalOf(edits);
  if (refusal) say(refusal, true);
  else {
    lookAfter(edits);
    tried = { edits: more, back: follow(settled, more).back };
  }
  return !refusal;
});

const isTried = more => Boolean(tried) && tried.edits.length === more.length && tried.edits.every(({ line }, place) => line === more[place].line);

// Shows the effect of some edits, or their lines, as a step of a drag, or above the state `before` it; a title describes them in
// a planner's words.
export const preview = (more, title = '', before = null) => {
  if (tries(editsOf(more))) show({ ...latest, title, before, isTried: true });
};

// The last step; the opened files if there is none.
export const stepNow = () => state.steps[state.place - 1] || state.opened;

// The tried edits belong to the present step from now on.
const settle = () => {
  [settled, tried] = [latest, null];
};

// Makes some edits, or their lines, as one step, with other names or without, which can be undone; false if one is refused, and
// then nothing has changed. A title describes them in a planner's words; `isFound` marks a timetable that was found, and `own`
// are the edits of the hand, if others follow it, which `also` describes.
export const doStep = (given, { title = '', labels = display.labels, isFound = false, own = given, also = '' } = {}) => {
  const more = editsOf(given), hand = editsOf(own);
  if (!isTried(more) && !tries(more)) {
    refresh();
    return false;
  }
  const words = `${title || within(display.view, () => editsText(hand, settled.network, latest.network), labels)}${also}`;
  const made = { ...tried, mark: markAfter(latest.network, settled.network, markNow()), title: words, labels, isFound, own: hand };
  settle();
  state.steps.splice(state.place, Infinity, made);
  state.place += 1;
  setLabels(labels);
  say(words);
  show({ ...latest, title: title && words });
  return true;
};

// Adds more edits to the last step, which gets another title.
export const extendStep = (more, title) => {
  const step = stepNow();
  if (!tries(more)) return refresh();
  state.steps[state.place - 1] = { ...step, edits: [...step.edits, ...more], back: [...tried.back, ...step.back], title };
  settle();
  return show({ ...latest, title });
};

// Makes the session undo the tried edits.
const leaveTried = () => {
  if (tried) toldWith(() => refusalOf(tried ? tried.back : []));
  [latest, tried] = [settled, null];
};

// Shows the present state again.
export const refresh = () => {
  leaveTried();
  show({ ...settled });
};

// Goes to the state after this many steps; if the session ends by a fault, nothing has changed.
const go = (place, word) => {
  if (place < 0 || place > state.steps.length) return;
  const back = state.steps.slice(place, state.place).reverse().flatMap(step => step.back);
  if (!tries([...back, ...state.steps.slice(state.place, place).flatMap(step => step.edits)])) return;
  state.place = place;
  settle();
  setLabels((place ? state.steps[place - 1] : state.opened).labels);
  say(word);
  show({ ...latest });
};
export const titleOf = ({ edits, title }) => title || countText(edits.length);

export const undo = () => state.place && go(state.place - 1, `undone: ${titleOf(state.steps[state.place - 1])}`);
export const redo = () => state.place < state.steps.length
  && go(state.place + 1, `done again: ${titleOf(state.steps[state.place])}`);
export const goTo = place => go(place, `${place} of ${state.steps.length} steps are done`);

export const linesOfStep = ({ edits }) => edits.map(({ line }) => line);

// All lines since the network was opened, of the steps that are done.
export const journal = () => state.steps.slice(0, state.place).flatMap(step => linesOfStep(step));

// The events that a planner has moved since a timetable was found or the network was changed.
export const eventsMoved = () => {
  const isMove = ({ edits, own = edits, isFound }) => !isFound && own.every(({ kind }) => kind === 'time');
  const done = state.steps.slice(0, state.place), other = done.map(isMove).lastIndexOf(false);
  return new Set(done.slice(other + 1).flatMap(({ edits, own = edits }) => own.map(({ numbers }) => numbers[0])));
};

// The replies to queries, which do not affect the state. Raises RunFault.
export const askSession = questions => {
  leaveTried();
  return withSession(() => questions.map(question => kept.ask(question)));
};

// Panels are drawn in the order in which they are listed: `begin` is called when another base is opened, and `build` when the
// network has other events or activities.
const panels = [];

export const addPanels = added => panels.push(...added);

const groupsOf = ({ network }) => {
  const trains = trainsOf(network);
  return { trains, lines: linesOf(trains) };
};

const show = view => {
  const before = display.view;
  setView(Object.assign(view, view.missing && ofTimed(view), { labels: display.labels, lastDomains: before ? lastDomains(before) : view.domains }));
  const isBuilt = !before || before.labels !== view.labels || before.network.shape !== view.network.shape;
  Object.assign(view, isBuilt ? groupsOf(view) : { trains: before.trains, lines: before.lines });
  // Names do not change while something is dragged.
  view.twins = view.isTried && !isBuilt ? before.twins : twinsOf(view);
  redraw(isBuilt);
};

export const redraw = (isBuilt = false) => keepingKeys(() => panels.forEach(panel => {
  if (isBuilt && panel.build) panel.build(display.view);
  panel.update(display.view);
}));

// The domains when some time was last possible, for the events that have none now.
const lastDomains = view => {
  if (!isInfeasible(view)) return view.domains;
  return new Map([...view.domains].map(([event, minutes]) => [event, minutes.length ? minutes : view.lastDomains.get(event) || []]));
};

// Shows a view without a run, such as that of a report.
export const readView = (view, places) => {
  beginDisplay(view.labels, places);
  setView(Object.assign(view, { lastDomains: view.domains }));
  Object.assign(view, groupsOf(view));
  view.twins = twinsOf(view);
};

export const choose = event => {
  if (display.chosen === event) return;
  setChosen(event);
  const line = display.view.lines.find(each => each.name === labelOf(event).line);
  if (line) setChosenLine(line.name);
  redraw();
};

// Chooses the first of some events, unless the chosen one is among them.
export const chooseAmong = events => {
  if (!events.includes(display.chosen)) setChosen(events.length ? events[0] : null);
};

export const chooseLine = name => {
  setChosenLine(name);
  redraw();
};

export const nameNetwork = title => {
  state.opened.title = title;
  redraw();
};
