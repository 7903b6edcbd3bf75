// Adds an activity between two chosen events, drops activities and events, and names an event. Each is a step.

import { display, within } from '../session/display.js';
import { edit } from '../base/edits.js';
import { element, find, say } from '../base/elements.js';
import { showRow } from './events.js';
import { factForm, minutesTyped } from './fields.js';
import { readLabels } from '../base/labels.js';
import { addActivity, beginMade, doMade, dropEvents } from './making.js';
import { activityName, eventName, labelOf } from '../session/names.js';
import { doStep, redraw, session } from '../session/session.js';

const KINDS = ['run', 'dwell', 'change', 'turn', 'headway'], OF_ONE_STATION = ['dwell', 'change', 'turn', 'turnaround', 'transfer'];
let from = null, opened = null, drawn = '';

export const dropActivity = number => doStep([edit.dropActivity(number)], { title: `${activityName(display.view.network.activities.get(number))} dropped` });

const activitiesAt = event => [...display.view.network.activities.values()].filter(each => each.first === event || each.last === event);

const dropEvent = event => {
  const made = beginMade();
  dropEvents(made, [event]);
  doMade(made, `${eventName(event)} dropped`);
};

// By a key: begins at the chosen event, and moves to the fields once both are chosen.
export const addHere = () => {
  if (from === null) beginHere();
  else if (from !== display.chosen) find('added-kind').focus();
};

const beginHere = () => {
  from = display.chosen;
  say(`From ${eventName(from)}: choose the event to which it leads.`);
  redraw();
};

const valueOf = id => minutesTyped(find(id).value);

// The fault of a kind between two events; '' if there is none.
const faultOf = kind => {
  const [one, other] = [from, display.chosen].map(event => labelOf(event).station), isApart = one && other && one !== other;
  return isApart && OF_ONE_STATION.includes(kind) ? `A ${kind} is at one station, and this leads from ${one} to ${other}. Choose another event or another kind, as “walk”.` : '';
};

const add = () => {
  const fault = faultOf(find('added-kind').value.trim());
  if (fault) throw new Error(fault);
  const made = beginMade(), span = [valueOf('added-least'), valueOf('added-most')], ends = [from, display.chosen], kind = find('added-kind').value.trim();
  addActivity(made, ends, span, find('added-weight').value.trim(), kind);
  doMade(made, `${kind || 'activity'} added from ${ends.map(eventName).join(' to ')}`);
  leave();
};

const leave = () => {
  from = null;
  redraw();
};

const button = (text, onclick, more = {}) => element('button', { type: 'button', onclick, ...more }, text);

const exchange = () => {
  const other = from;
  from = display.chosen;
  showRow(other);
};

const field = (id, label, more = {}) => element('label', {}, `${label} `,
  element('input', { id, class: 'number', required: true, autocomplete: 'off', ...more }));

const addingForm = () => {
  const used = new Set([...KINDS, ...[...display.labels.kinds.values()].slice(0, 1000)]);
  const list = element('datalist', { id: 'known-kinds' }, ...[...used].map(kind => element('option', { value: kind })));
  return factForm(add, element('span', { id: 'added-ends' }, `from ${eventName(from)} to ${eventName(display.chosen)}`),
    button('Exchange', exchange, { id: 'exchange' }), list, field('added-kind', 'kind', { class: '', size: 9, list: 'known-kinds', required: false }),
    field('added-least', 'takes'), field('added-most', 'to'), field('added-weight', 'weight', { value: 1 }),
    element('button', { class: 'main', id: 'add-it' }, 'Add it'), button('Leave', leave));
};

const adding = () => {
  if (from === null) return button('Add an activity from here …', beginHere, { id: 'add-from' });
  if (from !== display.chosen) return addingForm();
  return element('p', {}, `From ${eventName(from)}: choose the event to which it leads, by a click. `, button('Leave', leave));
};

// A chosen event beside its name.
const thisText = event => labelOf(event).station ? `this ${labelOf(event).kind || 'event'}` : eventName(event);

// Names are the page's own; the program has none.
const name = () => {
  const { view, labels, chosen } = display, [line, to, station, kind] = ['line', 'to', 'station', 'kind'].map(part => find(`named-${part}`).value.trim());
  const named = { ...labels, events: new Map([...labels.events, [chosen, { line, to, station, kind }]]) };
  doStep([], { labels: named, title: `${eventName(chosen)} is ${within(view, () => eventName(chosen), named)}` });
};

// The labels of a file, which replace and extend the present ones.
export const addLabels = text => {
  const { events, kinds, cost } = readLabels(text);
  return doStep([], { labels: { ...display.labels, events: new Map([...display.labels.events, ...events]), kinds: new Map([...display.labels.kinds, ...kinds]), cost: cost || display.labels.cost } });
};

const naming = () => {
  const label = labelOf(display.chosen);
  return element('details', {}, element('summary', {}, 'Name it'), factForm(name, ...['line', 'to', 'station', 'kind'].map(part =>
    field(`named-${part}`, part, { class: '', size: 9, required: false, value: label[part] })), element('button', { id: 'name-it' }, 'Name')));
};

const update = view => {
  if (!view.domains.has(from) || opened !== session.opened) from = null;
  ({ opened } = session);
  const isThere = view.domains.has(display.chosen), count = isThere ? activitiesAt(display.chosen).length : 0;
  const key = JSON.stringify([from, display.chosen, count, labelOf(display.chosen)]);
  if (key === drawn) return;
  drawn = key;
  const dropped = `Drop ${thisText(display.chosen)}${count ? ` and its ${count === 1 ? 'activity' : `${count} activities`}` : ''}`;
  find('adding').replaceChildren(...isThere ? [adding(), button(dropped, () => dropEvent(display.chosen), { id: 'drop-event' }), naming()] : []);
};

export const addingPanel = { update };
