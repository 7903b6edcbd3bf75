// The activities at the chosen event: their spans with ends to drag, and the tension and slack on them.

import { dropActivity } from './adding.js';
import { costName, costsText } from '../session/costs.js';
import { display } from '../session/display.js';
import { edit } from '../base/edits.js';
import { element, elided, find, setText } from '../base/elements.js';
import { bringRow, showRow } from './events.js';
import { minutesField, minutesTyped, numberField } from './fields.js';
import { beginDrag, makeHandle, moveOf, tellHandle, unitAt } from './handles.js';
import { activityName, kindOf, lengthText, minutesText, spanMinutes } from '../session/names.js';
import { doByHand } from './rest.js';
import { doStep } from '../session/session.js';
import { minutesHad } from '../base/viewing.js';

// This many activities have a card; a remark counts the others.
const MOST_CARDS = 200;
let listed = [], cards = new Map();

const build = () => {
  listed = [];
};

// The activities at an event, which are searched for only if it or one of them has changed.
let found = { activities: null, event: null, all: [] };
const activitiesAt = ({ activities }, event) => {
  if (found.activities === activities && found.event === event) return found.all;
  found = { activities, event, all: [...activities.values()].filter(each => each.first === event || each.last === event) };
  return found.all;
};

const update = view => {
  const all = activitiesAt(view.network, display.chosen);
  const some = all.slice(0, MOST_CARDS), wanted = [all.length, ...some.map(each => `${each.number} ${activityName(each)}`)];
  if (wanted.join() !== listed.join() || !all.length) {
    listed = wanted;
    cards = new Map(some.map(each => [each.number, makeCard(each)]));
    find('activities').replaceChildren(...[...cards.values()].map(card => card.node), ...beyond(all));
  }
  for (const each of some) drawCard(cards.get(each.number), each, view);
};

const beyond = ({ length }) => {
  const summary = elided(length, MOST_CARDS, 'activities at this event');
  return !length || summary ? [element('p', { class: 'quiet' }, summary || 'No activity is at this event.')] : [];
};

export const spansPanel = { build, update };

// Scrolls to the card of an activity, and focuses it; one of its events is chosen first.
export const showActivity = (number, event = null) => {
  const { first, last } = display.view.network.activities.get(number);
  bringRow(event !== null ? event : display.chosen === last ? last : first);
  const card = cards.get(number);
  for (const each of cards.values()) each.node.classList.toggle('chosen', each === card);
  if (!card) return;
  card.node.scrollIntoView({ block: 'nearest' });
  card.node.querySelector('.title button').focus({ preventScroll: true });
};

const field = (card, name, label, make = minutesField) => {
  card[name] = make({ 'aria-label': label, onchange: () => change(card) });
  return card[name];
};

// The card of an activity; its `range` is what its track shows, and stays while an end is dragged.
const makeCard = ({ number, first, last }) => {
  const card = { number, drawn: '' }, activity = display.view.network.activities.get(number), name = activityName(activity);
  const other = first === display.chosen ? last : first;
  card.bar = element('span', { class: 'bar' });
  card.slack = element('span', { class: 'slack' });
  card.tension = element('span', { class: 'tension' });
  card.lower = makeHandle('grip lower', `${name}: least minutes`, { tabindex: 0, 'data-end': 'lower' });
  card.upper = makeHandle('grip upper', `${name}: most minutes`, { tabindex: 0, 'data-end': 'upper' });
  card.track = element('div', { class: 'track' }, card.bar, card.slack, card.tension, card.lower, card.upper);
  card.summary = element('span', { class: 'told' });
  const fields = element('div', { class: 'fields' }, element('label', {}, 'from ', field(card, 'least', `${name}: least minutes`)),
    element('label', {}, 'to ', field(card, 'most', `${name}: most minutes`)),
    element('label', {}, 'weight ', field(card, 'weight', `${name}: ${costName()} of a minute of slack`, numberField)),
    element('button', { class: 'small', type: 'button', 'data-price': number, title: `${costName()} at each length`, hidden: activity.lower === activity.upper }, 'Prices'),
    element('button', { class: 'drop', onclick: () => dropActivity(number) }, `Drop this ${kindOf(number)}`));
  const title = element('button', { class: 'link', title: 'show the event at its other end', onclick: () => showRow(other) }, name);
  card.node = element('div', { class: 'card', 'data-activity': number }, element('div', { class: 'title' }, title, card.summary), card.track, fields);
  card.track.addEventListener('pointerdown', event => begin(card, event));
  card.track.addEventListener('keydown', event => typed(card, event));
  return card;
};

// The range of a track: the span and the tension, with some minutes before and after them.
const rangeOf = ({ lower, upper }, taken, period) => {
  const least = lower - Math.ceil(period / 12), most = Math.max(upper, taken ? taken.tension : upper);
  return { least, count: most + Math.ceil(period / 4) - least };
};

// The least minutes that the track of an activity shows, and how many.
export const rangeShown = number => [cards.get(number).range.least, cards.get(number).range.count];

const drawCard = (card, activity, view) => {
  const taken = view.tensions && view.tensions.get(activity.number);
  const isViolated = Boolean(view.violations && view.violations.activities.has(activity.number));
  const had = taken && minutesHad(view, activity.number);
  const drawn = JSON.stringify([activity, taken, isViolated]);
  if (card.drawn === drawn) return;
  card.drawn = drawn;
  const { lower, upper, weight } = activity, name = activityName(activity);
  if (!card.range || !document.body.classList.contains('dragging')) card.range = rangeOf(activity, taken, view.network.period);
  place(card.bar, card, lower, upper + 1);
  for (const [handle, value, left] of [[card.lower, lower, lower], [card.upper, upper, upper + 1]]) {
    handle.style.left = `${percent(card, left)}%`;
    tellHandle(handle, value, -1000000, 1000000, `${name}: ${spanMinutes(lower, upper)}`);
  }
  card.slack.hidden = card.tension.hidden = !taken;
  if (taken) {
    place(card.slack, card, lower, taken.tension);
    place(card.tension, card, taken.tension, taken.tension + 1);
  }
  card.node.classList.toggle('alarm', isViolated);
  setText(card.summary, toldOf(taken, had, isViolated, weight));
  for (const [input, value] of [[card.least, lengthText(lower)], [card.most, lengthText(upper)], [card.weight, weight]]) {
    if (document.activeElement !== input || document.body.classList.contains('dragging')) input.value = value;
  }
};

// A violated activity may be counted as a period longer than it is.
const toldOf = (taken, had, isViolated, weight) => {
  if (!taken) return 'one of its ends has no time';
  const cost = weight && taken.slack ? `, ${costsText(weight * taken.slack)}` : '';
  const counted = had === taken.tension ? '' : `, counted as ${lengthText(taken.tension)}`;
  return `${isViolated ? '✕ not met: ' : '✓ '}takes ${minutesText(had)}${counted}, slack ${lengthText(taken.slack)}${cost}`;
};

const percent = (card, minute) => Math.min(100, Math.max(0, 100 * (minute - card.range.least) / card.range.count));

const place = (node, card, first, end) => {
  node.style.left = `${percent(card, first)}%`;
  node.style.width = `${percent(card, end) - percent(card, first)}%`;
};

// The span that results when a handle is moved by some minutes; an end stops at the other one.
const spanLine = (number, { lower, upper }, end, move) => {
  if (end === 'lower') return edit.span(number, Math.min(upper, lower + move), upper);
  if (end === 'upper') return edit.span(number, lower, Math.max(lower, upper + move));
  return edit.span(number, lower + move, upper + move);
};

const begin = (card, event) => {
  if (event.button !== 0) return;
  const { least, count } = card.range, minuteAt = x => unitAt(card.track, x, least, count);
  const handle = event.target.closest('[data-end]'), end = handle ? handle.dataset.end : 'both';
  if (end === 'both' && event.target !== card.bar && event.target !== card.slack) return;
  const before = display.view.network.activities.get(card.number), start = minuteAt(event.clientX);
  if (handle) handle.focus({ preventScroll: true });
  event.preventDefault();
  beginDrag(event, x => [spanLine(card.number, before, end, minuteAt(x) - start)]);
};

const typed = (card, event) => {
  const move = moveOf(event), { end } = event.target.dataset;
  if (!move || !end) return;
  event.preventDefault();
  doByHand([spanLine(card.number, display.view.network.activities.get(card.number), event.shiftKey ? 'both' : end, move)]);
};

const change = card => {
  const before = display.view.network.activities.get(card.number);
  const [lower, upper] = [card.least, card.most].map(input => minutesTyped(input.value)), weight = card.weight.value.trim();
  const lines = [];
  if (lower !== String(before.lower) || upper !== String(before.upper)) lines.push(edit.span(card.number, lower, upper));
  if (weight !== String(before.weight)) lines.push(edit.weight(card.number, weight));
  if (lines.length) doStep(lines);
  card.drawn = '';
  drawCard(card, display.view.network.activities.get(card.number), display.view);
};
