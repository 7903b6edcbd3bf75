// What minutes cost, as far as known, in the network shown. Separate Workers compute it in the background until the next step.

import { display } from '../session/display.js';
import { say } from '../base/elements.js';
import { markNow, present } from '../session/session.js';
import { soleWorker } from '../base/workers.js';

// For networks by their marks, and each question by its key, the prices by minute; only of the last networks, with a limited
// number of timetables.
const known = new Map(), MOST_TIMES = 20000000, NONE = new Map();

// One processor is left to the page, and four are enough; each Worker gets PIECE minutes at once, the others LATER milliseconds after
// the first one.
const CREW = Math.min(4, Math.max(1, (navigator.hardwareConcurrency || 2) - 1)), PIECE = 6, LATER = 100;

// The requested prices, in this order.
const crew = Array.from({ length: CREW }, soleWorker);
let wanted = [], hear = () => {}, timer = 0;

export const hearPrices = listener => { hear = listener; };

const keyOf = ({ of, number }) => `${of} ${number}`;

export const pricesOf = question => (known.get(markNow()) || NONE).get(keyOf(question)) || NONE;

// The minutes that have a price, nearest to the present one first.
export const pricedMinutes = ({ of, number, lower, upper }) => {
  const { network: { period }, times, tensions } = display.view, isEvent = of === 'event';
  const least = isEvent ? 0 : lower, count = isEvent ? period : Math.min(upper - lower + 1, period);
  const now = isEvent ? times.get(number) : tensions?.get(number)?.tension, start = Math.min(Math.max(now || 0, least), least + count - 1);
  const far = minute => isEvent ? Math.min(Math.abs(minute - start), period - Math.abs(minute - start)) : Math.abs(minute - start);
  return [...Array(count).keys()].map(each => least + each).sort((one, other) => far(one) - far(other) || one - other);
};

const timesKnown = () => [...known.values()].flatMap(of => [...of.values()]).reduce((sum, { size }) => sum + size, 0) * display.view.network.events.length;

const keep = (mark, question, prices) => {
  const ofNetwork = known.get(mark) || new Map();
  ofNetwork.set(keyOf(question), prices);
  known.delete(mark);
  known.set(mark, ofNetwork);
  for (const old of [...known.keys()].slice(0, -1)) if (timesKnown() > MOST_TIMES) known.delete(old);
};

// An event's price does not depend on its window, so it stays known if only that was changed.
export const carryPrices = (question, act) => {
  const prices = pricesOf(question);
  if (act() && question.of === 'event') keep(markNow(), question, prices);
  hear();
};

const answered = (worker, { mark, question }) => ({ price, fault }) => {
  if (price) keep(mark, question, new Map((known.get(mark) || NONE).get(keyOf(question)) || NONE).set(price.minute, price));
  if (fault) {
    say(fault, true);
    wanted = [];
  }
  askNext([worker]);
  hear();
};

const isOf = ({ mark, question }, other) => mark === markNow() && keyOf(question) === keyOf(other);

const askedNow = () => crew.map(worker => worker.of()).filter(Boolean);

// The minutes of a question that are neither known nor requested.
const leftOf = question => {
  const asked = askedNow().filter(each => isOf(each, question)).flatMap(({ minutes }) => minutes), prices = pricesOf(question);
  return pricedMinutes(question).filter(minute => !prices.has(minute) && !asked.includes(minute));
};

const askOne = worker => {
  const question = wanted.find(each => leftOf(each).length);
  if (!question) return;
  const next = { kind: 'prices', mark: markNow(), ...present(), question, minutes: leftOf(question).slice(0, PIECE), events: display.view.network.events };
  worker.ask(next, answered(worker, next));
};

const askNext = workers => {
  if (!wanted.length) crew.forEach(({ end }) => end());
  else workers.filter(worker => !worker.of()).forEach(askOne);
};

// The other workers start a moment after the first one, whose first answer they would delay.
const startOthers = () => {
  clearTimeout(timer);
  timer = setTimeout(() => { if (!display.view.isTried) askNext(crew); }, LATER);
};

// Computes the answers to some questions, one after another, replacing earlier ones. Each is about an event, with its window, or
// an activity, with its span and weight. While something is dragged nothing else is requested.
export const wantPrices = questions => {
  const [first] = questions;
  wanted = questions;
  if (display.view.isTried) return;
  for (const worker of crew) if (worker.of() && !(first && isOf(worker.of(), first))) worker.leave();
  askNext(crew.slice(0, 1));
  startOthers();
};

// Whether more comes.
export const isPricing = () => askedNow().length > 0;
