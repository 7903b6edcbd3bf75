// What would help: the best timetable with one minute more, or with a least minute one lower, at each activity of the kinds that
// the planner permits, compared with the best timetable of the unchanged network. Each is a search; results are listed as they
// arrive, and a click applies one.

import { askFor } from './asking.js';
import { costsText, costText } from '../session/costs.js';
import { display } from '../session/display.js';
import { edit, timeEdits } from '../base/edits.js';
import { element, elided, find, say, tableOf } from '../base/elements.js';
import { bestKnown } from './founds.js';
import { activityName, kindOf, spanMinutes, spanText } from '../session/names.js';
import { isSure } from '../base/replies.js';
import { doStep, markNow, redraw } from '../session/session.js';
import { showActivity } from '../forms/spans.js';
import { isTab } from '../session/tabs.js';

const USUALLY_KEPT = ['run', 'dwell', 'headway'], MOST_ASKED = 2000, MOST_SHOWN = 200;
const MODES = {
  more: { title: 'one minute more', change: ({ lower, upper }) => ({ lower, upper: upper + 1 }), paid: () => 0n },
  // Slack counts from the least minutes: with one minute less the same timetable would cost more.
  less: { title: 'one less of the least minutes', change: ({ lower, upper }) => ({ lower: lower - 1, upper }), paid: ({ weight }) => BigInt(weight) },
};
// The questions, the state that they are about, and the results.
let asked = null, drawn = null;

const kindsOf = ({ network }) => {
  const counts = new Map();
  for (const number of network.activities.keys()) counts.set(kindOf(number), (counts.get(kindOf(number)) || 0) + 1);
  return [...counts].sort(([one], [other]) => one < other ? -1 : 1);
};

const boxes = () => [...find('allowed-kinds').querySelectorAll('input')];

// Boxes of existing kinds stay in place.
const build = view => {
  const kinds = kindsOf(view), before = new Map(boxes().map(box => [box.value, box.checked]));
  const isAny = kinds.some(([kind]) => !USUALLY_KEPT.includes(kind));
  find('allowed-kinds').replaceChildren(...kinds.map(([kind, count]) => element('label', {},
    element('input', { type: 'checkbox', value: kind, checked: before.has(kind) ? before.get(kind) : !isAny || !USUALLY_KEPT.includes(kind) }), ` ${kind} (${count})`)));
  drawn = null;
};

const costNow = ({ tensions }, { number, weight }) => tensions && tensions.has(number) ? BigInt(tensions.get(number).slack) * BigInt(weight) : 0n;

// The questions, those of the dearest activities first. Activities that exclude nothing are skipped.
const questionsOf = (view, mode) => {
  const { activities, period } = view.network, kinds = new Set(boxes().filter(box => box.checked).map(box => box.value));
  const open = [...activities.values()].filter(each => kinds.has(kindOf(each.number)) && each.upper - each.lower < period - 1);
  open.sort((one, other) => Number(costNow(view, other) - costNow(view, one)) || one.number - other.number);
  return open.slice(0, MOST_ASKED).map(each => ({ each, after: MODES[mode].change(each) }))
    .map(({ each, after }) => ({ number: each.number, after, paid: Number(MODES[mode].paid(each)), line: edit.span(each.number, after.lower, after.upper).line, back: edit.span(each.number, each.lower, each.upper).line }));
};

const look = event => {
  event.preventDefault();
  const mode = find('gain-way').value, questions = questionsOf(display.view, mode);
  if (!questions.length) return say('No activity of these kinds has least or most minutes that rule anything out.', true);
  const best = bestKnown();
  asked = { mark: markNow(), mode, count: questions.length, before: best, came: [], isEnded: false };
  askFor({ kind: 'gains', questions, best, events: display.view.network.events }, { tell: ({ gain }) => showGain(gain), end: endGains });
  drawn = null;
  return redraw();
};

// The result of one search; one without a number is of the unchanged network.
const showGain = gain => {
  if (gain.number === undefined) asked.before = gain.found;
  else asked.came.push(gain);
  drawn = null;
  redraw();
};

const isOfNow = () => asked && asked.mark === markNow();

// By how much a timetable is cheaper than the best one of the unchanged network; null if one of both is missing.
const savedBy = (view, { number, found }) => {
  if (!found.times || !asked.before.times) return null;
  return BigInt(asked.before.cost) - (BigInt(found.cost) - MODES[asked.mode].paid(view.network.activities.get(number)));
};

// What helps, the most first: if the unchanged network has no timetable, each change that gives one.
const helpful = view => {
  const all = asked.came.map(gain => ({ ...gain, saved: savedBy(view, gain) }));
  const good = all.filter(({ saved, found }) => saved === null ? found.times && !asked.before.times : saved > 0n);
  return good.sort((one, other) => Number((other.saved || 0n) - (one.saved || 0n)) || Number(BigInt(one.found.cost) - BigInt(other.found.cost)) || one.number - other.number);
};

const take = ({ number, line, found }) => {
  const activity = display.view.network.activities.get(number), title = `${activityName(activity)}: ${MODES[asked.mode].title}, and the best timetable with it`;
  doStep([line, ...timeEdits(found.times)], { title });
};

const savedText = ({ saved, found }) => {
  if (saved === null) return `then there is a timetable, of ${costText(found.cost)}`;
  const isMore = !isSure(found), sure = isMore ? 'or more' : '';
  return [saved.toLocaleString('en'), isSure(asked.before) ? sure : isMore ? 'perhaps' : 'or less'].filter(Boolean).join(', ');
};

const row = (view, gain) => {
  const activity = view.network.activities.get(gain.number), { lower, upper } = gain.after;
  const lead = () => showActivity(gain.number), change = `${spanMinutes(lower, upper)}, was ${spanText(activity.lower, activity.upper)}`;
  return element('tr', { 'data-gain': gain.number }, element('td', {}, element('button', { class: 'mend', type: 'button', onclick: () => take(gain) }, 'Take over')),
    element('td', { class: 'saved' }, savedText(gain)), element('td', {}, element('button', { class: 'link', type: 'button', onclick: lead }, activityName(activity))),
    element('td', {}, change));
};

const beforeText = ({ kind, cost, isShown }) => ({
  optimum: () => `The best timetable as it is ${costsText(cost)}.`, stopped: () => `As it is, ${isShown ? 'the timetable shown' : 'a timetable was found that'} ${costsText(cost)}; perhaps not the best.`,
  infeasible: () => 'As it is, no timetable meets everything.', none: () => 'As it is, no timetable was found.',
})[kind]();

const WORDS = 'Which activity should be given a minute? Each of the kinds that are ticked is asked, and what saves most comes first.';

const contentOf = view => {
  if (!isOfNow()) return [element('p', { class: 'quiet' }, WORDS)];
  const { before, came, count, isEnded } = asked;
  if (!before) return [element('p', {}, 'The best timetable as it is is looked for …')];
  const good = helpful(view), going = came.length ? 'asking on' : 'looking for a better one first';
  const end = came.length === count ? '' : isEnded ? ' — stopped' : ` — ${going} …`;
  const none = came.length - good.length, progress = `${came.length} of ${count} asked; ${none} of them ${before.times ? 'save' : 'help'} nothing${end}`;
  const heads = ['', before.times ? 'saves' : 'helps', 'activity', 'takes'];
  return [element('p', {}, beforeText(before)), element('p', { class: 'quiet', id: 'gains-progress' }, progress),
    good.length ? tableOf('rows', heads, good.slice(0, MOST_SHOWN).map(gain => row(view, gain))) : null,
    element('p', { class: 'quiet' }, elided(good.length, MOST_SHOWN, 'that save something'))].filter(Boolean);
};

// A focused button keeps the focus when the list grows.
const update = view => {
  if (!isTab('gains')) return;
  if (drawn === view && isOfNow()) return;
  drawn = view;
  const holder = find('gains'), /** @type {any} */ focused = document.activeElement.closest('#gains [data-gain]');
  const at = focused ? [...focused.querySelectorAll('button')].indexOf(document.activeElement) : 0;
  holder.replaceChildren(...contentOf(view));
  if (focused) holder.querySelector(`[data-gain="${focused.dataset.gain}"]`)?.querySelectorAll('button')[at].focus();
};

export const gainsPanel = { build, update };

// Nothing more comes.
const endGains = () => {
  asked.isEnded = true;
  drawn = null;
  if (display.view) update(display.view);
};

export const startGains = () => {
  find('gain-way').replaceChildren(...Object.entries(MODES).map(([value, { title }]) => element('option', { value }, title)));
  find('gains-form').addEventListener('submit', look);
};
