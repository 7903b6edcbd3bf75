// The activities of each kind for a report, dearest first, with their share of the cost.

import { costName } from '../session/costs.js';
import { drawing, element, elided, rowOf, tableOf } from '../base/elements.js';
import { activityName, lengthText, spanText } from '../session/names.js';

const MOST_ROWS = 5000, BAR = 120;

const heads = () => ['Activity', 'no.', 'may take', 'takes', 'slack', 'weight', costName()];

const costOf = (view, { number, weight }) => view.tensions ? BigInt(weight) * BigInt(view.tensions.get(number).slack) : 0n;

const kindsOf = view => {
  const kinds = new Map();
  for (const each of view.network.activities.values()) {
    const name = view.labels.kinds.get(each.number) || 'activity', cost = costOf(view, each), kind = kinds.get(name) || { name, cost: 0n, rows: [] };
    kinds.set(name, kind);
    kind.rows.push({ each, cost });
    kind.cost += cost;
  }
  const slackOf = ({ each }) => view.tensions ? view.tensions.get(each.number).slack : 0;
  for (const { rows } of kinds.values()) rows.sort((one, other) => Number(other.cost - one.cost) || slackOf(other) - slackOf(one) || one.each.number - other.each.number);
  return [...kinds.values()].sort((one, other) => Number(other.cost - one.cost) || (one.name < other.name ? -1 : 1));
};

const share = (cost, total) => {
  const fraction = total ? Number(cost) / Number(total) : 0, look = { x: 0, y: 0, height: 10 };
  return drawing('svg', { class: 'share', viewBox: `0 0 ${BAR} 10`, role: 'img', 'aria-label': `${Math.floor(100 * fraction)} per cent` },
    drawing('rect', { ...look, width: BAR, fill: 'var(--track)' }), drawing('rect', { ...look, width: BAR * fraction, fill: 'var(--bar-edge)' }));
};

const row = (view, { each, cost }) => {
  const { number, lower, upper, weight } = each, taken = view.tensions && view.tensions.get(number);
  const known = taken ? [taken.tension, taken.slack].map(minutes => lengthText(minutes)) : ['–', '–'];
  const isViolated = Boolean(view.violations && view.violations.activities.has(number));
  const cells = [String(number), spanText(lower, upper), ...known, weight.toLocaleString('en'), taken ? cost.toLocaleString('en') : '–'];
  return rowOf(activityName(each), cells, { 'data-activity': number, class: isViolated ? 'alarm' : null });
};

export const kindTables = view => {
  const kinds = kindsOf(view), total = kinds.reduce((sum, { cost }) => sum + cost, 0n);
  const rows = kinds.map(({ name, rows: all, cost }) => rowOf(name, [all.length.toLocaleString('en'), cost.toLocaleString('en'), element('td', {}, share(cost, total))]));
  const listed = kinds.flatMap(({ name, rows: all }) => [element('h3', {}, `${name.slice(0, 1).toUpperCase()}${name.slice(1)}`),
    element('p', { class: 'quiet' }, elided(all.length, MOST_ROWS, 'activities')),
    tableOf('times listed', heads(), all.slice(0, MOST_ROWS).map(each => row(view, each)))]);
  return [element('section', { id: 'activities-by-kind', class: 'part' }, element('h2', {}, 'Activities by kind'),
    element('p', { class: 'quiet' }, `The slack is what an activity takes above its least minutes; its weight times its slack is its part of the ${costName()}. Most first.`),
    tableOf('times listed', ['Kind', 'number', costName(), `share of the ${costName()}`], rows), ...listed)];
};
