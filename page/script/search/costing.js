// The price of each minute of the chosen event, of all of its train, and of activities at it: requested by a tick or a button,
// drawn as it is computed, and applied by a click.

import { costName } from '../session/costs.js';
import { drawCurve, hasCost, makeCurve, priceText, shadesOf, summaryOf } from './curves.js';
import { display } from '../session/display.js';
import { edit } from '../base/edits.js';
import { element, find, findAll, say, setText } from '../base/elements.js';
import { minutesOfKey, tellHandle, unitAt } from '../forms/handles.js';
import { activityName, clock, eventName, minutesText } from '../session/names.js';
import { carryPrices, hearPrices, isPricing, pricedMinutes, pricesOf, wantPrices } from './prices.js';
import { doStep } from '../session/session.js';
import { rangeShown } from '../forms/spans.js';
import { trainAt } from '../session/trains.js';

// While prices arrive, pictures are drawn this many milliseconds apart: drawing takes longer than a price.
const APART = 100;

// An event of the train and the activities that were requested; the minute under the pointer in a picture; the pending frame and
// timer; and when the pictures were drawn.
let ofTrain = null, activities = new Set(), looked = { key: '', minute: null }, frame = 0, timer = 0, drawnAt = -APART;

const eventQuestion = event => ({ of: 'event', number: event, window: display.view.network.windows.get(event) || null });

const activityQuestion = number => ({ of: 'activity', ...display.view.network.activities.get(number) });

const isOn = () => find('ask-prices').checked;

// The chosen event, and if requested all others of its train.
const eventsAsked = () => {
  const { chosen } = display, of = trainAt(chosen);
  if (!isOn()) return [];
  return of && of.train.events.includes(ofTrain) ? [chosen, ...of.train.events.filter(event => event !== chosen)] : [chosen];
};

// Activities come first, since they were requested separately.
const questions = ({ network, domains }) => [
  ...[...activities].filter(number => network.activities.has(number)).map(activityQuestion),
  ...eventsAsked().filter(event => domains.has(event)).map(eventQuestion),
];

const trackOf = ({ of, number }) => {
  if (of === 'event') return { least: 0, count: display.view.network.period };
  const [least, count] = rangeShown(number);
  return { least, count };
};

const conditionOf = ({ of }, minute) => of === 'event' ? `at ${clock(minute)}` : `with ${minutesText(minute)}`;

const nowOf = ({ of, number }, { times, tensions }) => of === 'event' ? times.get(number) : tensions.get(number)?.tension;

// The differences of another timetable.
const changedTimes = ({ times }) => {
  const { network: { events }, times: now } = display.view;
  return events.flatMap((event, place) => now.get(event) === times[place] ? [] : [edit.time(event, times[place])]);
};

const holdEdits = ({ of, number, window }, minute) => of !== 'event' || (window && window.length === 1 && window.first === minute) ? [] : [edit.fix(number, minute)];

const titleOf = ({ of, number }, minute) => of === 'event' ? `${eventName(number)}: held at ${clock(minute)}`
  : `${activityName(display.view.network.activities.get(number))}: ${minutesText(minute)}`;

// Fixes an event at a minute, if a price is known there, and takes over the best timetable with it.
const take = (question, minute) => {
  const price = pricesOf(question).get(minute);
  if (!hasCost(price)) return say(priceText(pricesOf(question), minute, conditionOf(question, minute)), true);
  const lines = [...holdEdits(question, minute), ...changedTimes(price)];
  if (!lines.length) return say('It is so already.');
  return carryPrices(question, () => doStep(lines, { title: titleOf(question, minute), isFound: true }));
};

const lookAt = (question, minute) => {
  looked = { key: `${question.of} ${question.number}`, minute };
  drawSoon();
};

const minuteAt = (question, picture, x) => {
  const { least, count } = trackOf(question);
  return Math.min(least + count - 1, Math.max(least, unitAt(picture, x, least, count)));
};

const typed = (question, event) => {
  const all = pricedMinutes(question), least = Math.min(...all), most = Math.max(...all), move = minutesOfKey(event);
  const now = lookedIn(question) ?? all[0];
  if (event.ctrlKey || event.metaKey || event.altKey) return;
  if (move) lookAt(question, Math.min(most, Math.max(least, now + move)));
  else if (event.key === 'Enter' || event.key === ' ') take(question, now);
  else return;
  event.preventDefault();
  event.stopPropagation();
};

const lookedIn = ({ of, number }) => looked.key === `${of} ${number}` ? looked.minute : null;

// A picture with its words, of the present question.
const pictureOf = (name, questionNow) => {
  const picture = makeCurve(name, {
    onpointermove: event => lookAt(questionNow(), minuteAt(questionNow(), picture, event.clientX)),
    onpointerleave: () => lookAt(questionNow(), null),
    onclick: event => take(questionNow(), minuteAt(questionNow(), picture, event.clientX)),
    onkeydown: event => typed(questionNow(), event),
  });
  return element('div', { class: 'priced' }, picture, element('p', { class: 'quiet' }), element('p', { class: 'quiet' }));
};

const isTurned = ({ network: { windows } }, { of, number }) => of === 'event' && ![...windows.keys()].some(event => event !== number);

const draw = (holder, question, view) => {
  const [picture, summary, at] = holder.children, prices = pricesOf(question), minute = lookedIn(question), now = nowOf(question, view), all = pricedMinutes(question);
  const { period } = view.network, words = minute === null ? '' : priceText(prices, minute, conditionOf(question, minute));
  drawCurve(picture, prices, trackOf(question), minute === null ? now : minute);
  setText(summary, prices.size ? summaryOf(prices, all, { period, isLength: question.of !== 'event', isTurned: isTurned(view, question) }) : 'It is being worked out.');
  setText(at, words || 'A click takes a minute over with its timetable.');
  tellHandle(picture, minute === null ? all[0] : minute, Math.min(...all), Math.max(...all), words || summary.textContent);
};

// The activities' pictures are in their cards, which may be built again.
const drawCards = view => {
  for (const button of findAll('[data-price]')) {
    const number = Number(button.dataset.price), holder = button.closest('.card').querySelector('.priced');
    if (!activities.has(number)) continue;
    const made = holder || pictureOf(`${activityName(view.network.activities.get(number))}: ${costName()} at each length`, () => activityQuestion(number));
    if (!holder) button.closest('.card').querySelector('.track').after(made);
    draw(made, activityQuestion(number), view);
  }
};

const drawStrips = view => {
  const known = eventsAsked().filter(event => pricesOf(eventQuestion(event)).size), track = { least: 0, count: view.network.period };
  for (const strip of findAll('.strip.priced')) strip.classList.toggle('priced', known.includes(Number(strip.dataset.event)));
  for (const event of known) {
    const [strip] = findAll(`.strip[data-event="${event}"]`);
    if (!strip) continue;
    strip.classList.add('priced');
    strip.style.setProperty('--prices', shadesOf(pricesOf(eventQuestion(event)), track));
  }
};

const drawChosen = (view, event) => {
  const [holder] = findAll('#prices .priced');
  if (holder && !isOn()) holder.remove();
  if (!isOn()) return;
  const made = holder || pictureOf(`${costName()} at each minute`, () => eventQuestion(display.chosen));
  if (!holder) find('prices').append(made);
  draw(made, eventQuestion(event), view);
};

const drawAll = () => {
  const { view, chosen } = display;
  frame = 0;
  if (!view || !view.domains.has(chosen)) return;
  find('prices-of-train').hidden = !isOn() || !trainAt(chosen);
  find('prices').classList.toggle('busy', isPricing());
  drawChosen(view, chosen);
  drawCards(view);
  drawStrips(view);
};

const drawSoon = () => {
  frame = frame || requestAnimationFrame(drawAll);
};

const drawPriced = () => {
  timer = timer || setTimeout(() => {
    [timer, drawnAt] = [0, performance.now()];
    drawSoon();
  }, drawnAt + APART - performance.now());
};

// The first answer to a new question is drawn as soon as it arrives.
const ask = view => {
  wantPrices(questions(view));
  if (view.isTried) return;
  clearTimeout(timer);
  [timer, drawnAt] = [0, -APART];
  drawSoon();
};

const again = () => ask(display.view);

const askTrain = () => {
  ofTrain = display.chosen;
  again();
};

const build = () => {
  if (!find('ask-prices')) makeHands();
  setText(find('ask-prices').nextElementSibling, ` ${costName()} at each minute `);
  // The text on a picture is its name too.
  for (const picture of findAll('.priced')) picture.remove();
};

const makeHands = () => {
  find('prices').append(element('label', {}, element('input', { type: 'checkbox', id: 'ask-prices', onchange: again }), element('span')),
    element('button', { type: 'button', id: 'prices-of-train', hidden: true, onclick: askTrain }, 'Of all of its train'));
};

export const costingPanel = {
  begin: () => { [ofTrain, activities] = [null, new Set()]; },
  build,
  update: ask,
};

export const startCosting = () => {
  hearPrices(drawPriced);
  find('activities').addEventListener('click', event => {
    const button = event.target.closest('[data-price]');
    if (!button) return;
    activities.add(Number(button.dataset.price));
    again();
  });
};
