// The picture of what minutes cost: a curve above shades, over as many minutes as a track shows.

import { costsText, costText } from '../session/costs.js';
import { element } from '../base/elements.js';
import { makeHandle } from '../forms/handles.js';
import { domainText, minutesText } from '../session/names.js';

const FLOOR = 12;

export const hasCost = price => Boolean(price) && price.cost !== undefined;

/** The least and the greatest known cost; null if there is none.
 * @returns {[bigint, bigint]} */
const rangeOf = prices => {
  const costs = [...prices.values()].filter(hasCost).map(({ cost }) => BigInt(cost));
  const extreme = isBetter => costs.reduce((best, cost) => isBetter(cost, best) ? cost : best);
  return costs.length ? [extreme((one, other) => one < other), extreme((one, other) => one > other)] : null;
};

const leastCost = prices => (rangeOf(prices) || [null])[0];

// The share of a price between the least and the greatest, from 0 to 1.
const shareOf = ({ cost }, [least, most]) => most === least ? 0 : Number(BigInt(cost) - least) / Number(most - least);

const colorOf = (price, range) => {
  if (hasCost(price)) return `color-mix(in srgb, var(--dear) ${Math.round(100 * shareOf(price, range))}%, var(--cheap))`;
  return price && price.kind === 'infeasible' ? 'var(--none)' : 'transparent';
};

const percent = (minute, { least, count }) => 100 * (minute - least) / count;

// The shades as a background image: a stripe for each known minute.
export const shadesOf = (prices, track) => {
  const range = rangeOf(prices), stripes = [];
  for (let minute = track.least; minute < track.least + track.count; minute += 1) {
    const [start, end] = [minute, minute + 1].map(each => percent(each, track).toFixed(2));
    stripes.push(`${colorOf(prices.get(minute), range)} ${start}% ${end}%`);
  }
  return `linear-gradient(to right, ${stripes.join(', ')})`;
};

// The curve as the edge of an area, which goes down to the ground if nothing is known or nothing is possible.
const edgeOf = (prices, track) => {
  const range = rangeOf(prices), points = ['0% 100%'];
  for (let minute = track.least; minute < track.least + track.count; minute += 1) {
    const price = prices.get(minute), [start, end] = [minute, minute + 1].map(each => percent(each, track).toFixed(2));
    const height = hasCost(price) ? (100 - FLOOR) * (1 - shareOf(price, range)) : 100;
    points.push(`${start}% ${height.toFixed(1)}%`, `${end}% ${height.toFixed(1)}%`);
  }
  return `polygon(${[...points, '100% 100%'].join(', ')})`;
};

// An empty picture. Its owner handles pointer and keys.
export const makeCurve = (name, more) => {
  const made = makeHandle('curve', name, { tabindex: 0, ...more });
  made.append(...['shades', 'area', 'best', 'at'].map(each => element('span', { class: each })));
  return made;
};

const bestMinutes = prices => {
  const least = leastCost(prices);
  return least === null ? [] : [...prices.values()].filter(price => hasCost(price) && BigInt(price.cost) === least).map(({ minute }) => minute).sort((one, other) => one - other);
};

export const drawCurve = (picture, prices, track, at) => {
  const [shades, area, best, mark] = picture.children, [first] = bestMinutes(prices);
  shades.style.background = shadesOf(prices, track);
  area.style.clipPath = edgeOf(prices, track);
  for (const [node, minute] of [[best, first], [mark, at]]) {
    node.hidden = minute === undefined || minute === null;
    if (!node.hidden) node.style.left = `${percent(minute + 0.5, track)}%`;
  }
};

// What a minute costs compared with the best one, in words.
export const priceText = (prices, minute, condition) => {
  const price = prices.get(minute), least = leastCost(prices);
  if (!price) return `${condition}: not known yet`;
  if (price.kind === 'infeasible') return `${condition} there is no timetable`;
  if (!hasCost(price)) return `${condition} none is found yet; it has at least ${costText(price.bound)}`;
  const more = BigInt(price.cost) - least, best = price.kind === 'optimum' ? 'the best' : 'the best that is found';
  return `${condition} ${best} ${more ? `${costsText(more)} more` : `is as good as any: ${costText(price.cost)}`}`;
};

// Which minutes are best, and which have none, as far as known.
export const summaryOf = (prices, all, { period, isLength, isTurned }) => {
  const best = bestMinutes(prices), none = [...prices.values()].filter(({ kind }) => kind === 'infeasible').map(({ minute }) => minute).sort((one, other) => one - other);
  const left = all.length - prices.size, name = minutes => isLength ? minutes.map(each => minutesText(each)).join(', ') : domainText(minutes, period);
  if (!left && best.length === all.length && isTurned) return 'Each minute is as good as any: nothing else is held, and so all can be turned together. Hold an event of another train first.';
  return [best.length ? `Best: ${name(best)}, ${costText(leastCost(prices))}.` : '', none.length ? `No timetable: ${name(none)}.` : '',
    left ? `${left} of ${all.length} are not known yet.` : ''].filter(Boolean).join(' ');
};
