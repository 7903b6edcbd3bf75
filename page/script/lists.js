// Two lists: what the working timetable violates, and the steps that made the state shown.

import { conflictsOf } from './session/conflicts.js';
import { display } from './session/display.js';
import { beginsEdit } from './base/edits.js';
import { element, elided, find, say, setText } from './base/elements.js';
import { showRow } from './forms/events.js';
import { activityName, clock, eventName, kindOf, windowText } from './session/names.js';
import { mend } from './search/proposing.js';
import { askSession, doStep, goTo, session, titleOf } from './session/session.js';
import { showActivity } from './forms/spans.js';
import { isTab } from './session/tabs.js';
import { untimedText } from './base/timed.js';

const MOST_VIOLATED = 500, MOST_NUMBERS = 50;

const updateViolated = view => {
  if (!isTab('violated')) return;
  const { violations } = view, items = [];
  if (view.missing) items.push(element('p', { class: 'quiet' }, `Of what has times: ${untimedText(view)}.`));
  const listed = [...conflictsOf(view).all.map(conflict => () => violatedActivity(conflict)),
    ...[...violations.events].map(event => () => violatedEvent(event, view))];
  const note = elided(listed.length, MOST_VIOLATED, 'that are violated');
  if (note) items.push(element('p', { class: 'quiet' }, note));
  if (listed.length && !view.isTried) items.push(element('button', { type: 'button', class: 'main', onclick: mend }, 'Mend all of it'));
  if (listed.length) items.push(element('div', {}, ...listed.slice(0, MOST_VIOLATED).map(make => make())));
  if (!listed.length) items.push(element('p', { class: 'quiet' }, view.missing ? 'Nothing of it is violated.' : 'The working timetable meets everything.'));
  find('view-violated').replaceChildren(...items);
};

const item = (lead, name, detail) => element('p', { class: 'violated' },
  element('button', { class: 'link', onclick: lead }, `✕ ${name}`), ` — ${detail}`);

const violatedActivity = ({ number, activity, detail }) => item(() => showActivity(number), activityName(activity), detail);

const violatedEvent = (event, view) => item(() => showRow(event), eventName(event),
  `is at ${clock(view.times.get(event))}, held ${windowText(view.network.windows.get(event), view.network.period)}`);

export const violatedPanel = { update: updateViolated };

// The state to which the reply below the steps belongs.
let replied = null;

// Only here does the page show the commands of a step.
const commandsOf = ({ edits }) => !edits.length ? 'no command' : edits.length === 1 ? edits[0].line : `${edits[0].line} and ${edits.length - 1} more commands`;

// The numbers by which commands name the chosen event and its activities.
const tellNumbers = ({ network }) => {
  const { chosen } = display, at = [...network.activities.values()].filter(({ first, last }) => first === chosen || last === chosen).slice(0, MOST_NUMBERS);
  setText(find('chosen-number'), chosen === null ? '' : `${eventName(chosen)}: event ${chosen}. ${at.map(({ number }) => `${kindOf(number)} ${number}`).join(', ')}`);
};

const updateLines = view => {
  if (replied !== view) setText(find('replied'), '');
  if (!isTab('lines')) return;
  const { steps, place } = session;
  const items = steps.map((step, each) => element('li', { class: each < place ? '' : 'undone' },
    element('button', { class: 'link', onclick: () => goTo(each + 1), title: 'go to the state after this step' }, titleOf(step)),
    ` — ${commandsOf(step)}`, each < place ? '' : ' (undone)'));
  find('steps').replaceChildren(...items);
  find('no-steps').hidden = steps.length > 0;
  tellNumbers(view);
};

export const stepsPanel = { update: updateLines };

// A line as the program accepts it: an edit is a step, and anything else a query.
const typed = event => {
  event.preventDefault();
  const input = find('line'), line = input.value.trim();
  if (!line || line.startsWith('#')) return;
  if (/^(adopt|optimum|try)\b/.test(line)) return say('The buttons above search, and can be stopped.', true);
  if (beginsEdit(line)) {
    if (doStep([line])) input.value = '';
    return;
  }
  try {
    const [reply] = askSession([line]);
    replied = display.view;
    find('replied').textContent = `> ${line}\n${reply.join('\n')}`;
  } catch (fault) {
    say(fault.message, true);
  }
};

export const startLines = () => find('typed').addEventListener('submit', typed);
