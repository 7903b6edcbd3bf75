// Two variants side by side: the present state is kept as A or as B, and both are compared. If only one is kept, the other is the
// present state. They stay as long as the page, whatever else is opened.

import { besideConnections, besideDiagram, besideTable } from '../draw/beside.js';
import { editsBetween } from '../base/between.js';
import { costName } from '../session/costs.js';
import { diagramOf } from '../draw/diagram.js';
import { costsBeside, differences } from '../session/differing.js';
import { display, within } from '../session/display.js';
import { element, elided, find, rowOf, say, tableOf } from '../base/elements.js';
import { showRow } from '../forms/events.js';
import { isField } from '../forms/fields.js';
import { movesText } from '../draw/moves.js';
import { minutesText } from '../session/names.js';
import { see } from './proposing.js';
import { doStep, redraw, session, timesNow } from '../session/session.js';
import { isTab, showTab } from '../session/tabs.js';
import { countViolated } from '../base/viewing.js';

const NAMES = ['A', 'B'], MOST_TOLD = 300;
const kept = new Map();
let drawn = [], line = null;

const keep = (name, isByKey = false) => {
  if (!display.view) return;
  kept.set(name, { view: display.view, title: session.opened.title });
  say(kept.size < 2 ? `Kept as ${name}. Change something, and keep that as ${NAMES.find(each => each !== name)}.` : `Kept as ${name}.`);
  if (kept.size < 2) return redraw();
  showTab('compare');
  if (isByKey) find('tab-compare').focus();
};

// The two that are compared; one that is not kept is the present state, and then the second.
const sides = () => {
  const found = NAMES.filter(name => kept.has(name)).map(name => ({ name, ...kept.get(name) }));
  return found.length === 1 ? [...found, { name: 'now', view: display.view, title: session.opened.title }] : found;
};

const swap = () => {
  const [one, other] = NAMES.map(name => kept.get(name));
  kept.clear();
  kept.set('A', other).set('B', one);
  say('A and B are exchanged.');
  redraw();
};

const forget = name => {
  kept.delete(name);
  say(`${name} is forgotten.`);
  redraw();
};

// Takes one over as one step, which undo reverts.
const take = name => {
  const { view } = kept.get(name), [wanted, now] = [view, display.view].map(({ network }) => minutesText(network.period));
  if (!isOfPeriod(view)) return say(`${name} repeats after ${wanted}, and what is open after ${now}: open its files.`, true);
  return doStep(linesTo(view), { title: `${name} is taken over`, labels: view.labels, isFound: true });
};

const button = (text, onclick, more = {}) => element('button', { type: 'button', onclick, ...more }, text);

// The lines that turn the present state into another view of the same period.
const linesTo = view => editsBetween({ network: display.view.network, times: timesNow() }, view);

const isOfPeriod = view => view.network.period === display.view.network.period;

const isShown = view => view === display.view || (isOfPeriod(view) && view.labels === display.labels && !linesTo(view).length);

// A variant with the same events, activities and names is drawn above the present state before it is taken over.
const isSeen = view => view.network.shape === display.view.network.shape && view.labels === display.labels && !isShown(view);

const seeVariant = name => {
  const { view } = kept.get(name);
  see(linesTo(view), movesText(view.times), { title: `${name} is taken over` }, false);
};

// Titles tell two networks apart.
const headOf = ({ name, title }, isTitled) => element('th', { scope: 'col' }, element('b', {}, name === 'now' ? 'what is shown' : name), ' ',
  isTitled && element('small', {}, title));

const numbered = count => count === null ? '–' : `${count.toLocaleString('en')}`;

const signed = more => more > 0 ? `+${more.toLocaleString('en')}` : more < 0 ? `−${(-more).toLocaleString('en')}` : '0';

const row = (name, one, other, more, look = null) => rowOf(name, [one, other, more], { class: look });

const violatedRow = both => {
  const counts = both.map(({ view }) => countViolated(view)), [before, after] = counts, cell = count => element('td', { class: count > 0 ? 'alarm' : null }, numbered(count));
  const more = counts.includes(null) ? '' : signed(after - before);
  return rowOf('violated', [...counts.map(cell), more]);
};

// Total cost and by kind, and violations.
const figures = (both, costs) => {
  const inAll = `${costName()} in all`, rows = (costs || []).map(([kind, one, other]) =>
    row(kind === 'in all' ? inAll : `${costName()} of ${kind}`, one.toLocaleString('en'), other.toLocaleString('en'), signed(other - one), kind === 'in all' ? 'sum' : null));
  const unknown = costs ? [] : [row(inAll, ...both.map(({ view }) => numbered(view.cost)), '', 'sum')];
  const sum = rows.pop(), isTitled = both[0].title !== both[1].title, heads = both.map(side => headOf(side, isTitled));
  return tableOf('times beside', ['', ...heads, 'change'], [violatedRow(both), sum, ...unknown, ...rows].filter(Boolean));
};

// The difference of an event links to it, if it is in the network shown.
const item = ({ event, text }) => element('li', {}, display.view.domains.has(event)
  ? element('button', { class: 'link', type: 'button', onclick: () => showRow(event) }, text) : text);

const listOf = (title, changes) => [element('h4', {}, title), changes.length
  ? element('ul', {}, ...changes.slice(0, MOST_TOLD).map(item)) : element('p', { class: 'quiet' }, 'no change'),
elided(changes.length, MOST_TOLD, 'changes')].filter(Boolean);

const nameOfLine = both => {
  const names = [...new Set(both.flatMap(({ view }) => view.lines.map(each => each.name)))];
  return { names, name: names.find(each => each === line) || names.find(each => each === display.chosenLine) || names[0] };
};

const lineChoice = ({ names, name }) => {
  const select = element('select', { id: 'compared-line', onchange: () => {
    line = select.value;
    drawn = [];
    redraw();
    find('compared-line').focus();
  } }, ...names.map(each => element('option', { value: each, selected: each === name }, each)));
  return element('label', {}, 'Line ', select);
};

const samePeriod = ([one, other]) => one.view.network.period === other.view.network.period;

// The line in one drawing, or in two if the periods differ.
const diagramsOf = (both, name) => {
  if (samePeriod(both)) return [besideDiagram(both, name), element('p', { class: 'quiet' }, `Dashed: ${both[0].name}. Whole: ${both[1].name}.`)];
  return both.flatMap(({ view, name: side }) => within(view, () => {
    const found = view.lines.find(each => each.name === name);
    return found && found.stations.length > 1 ? [element('h4', {}, side), diagramOf(view, found).drawn] : [];
  }));
};

const linePart = both => {
  const choice = nameOfLine(both);
  if (!choice.names.length) return [];
  return [element('h3', {}, 'The line in both'), lineChoice(choice), element('div', { class: 'line' }, ...diagramsOf(both, choice.name).filter(Boolean),
    besideTable(both, choice.name))];
};

const WORDS = 'Keep what is shown as A, change something or open another file, and keep that as B: both are told here beside each other.';

const changesPart = ([before, after]) => {
  const { network, times } = differences(before.view, after.view);
  return [element('h3', {}, 'What they differ in'), ...listOf('Network', network), ...listOf('Times', times)];
};

// The comparison, one part below another; during a drag only the visible changes are drawn.
const PARTS = [
  { draw: both => [figures(both, costsBeside(...both.map(({ view }) => view)))], isFollowed: true },
  { draw: changesPart, isFollowed: false },
  { draw: linePart, isFollowed: true },
  { draw: both => [element('h3', {}, 'Connections'), ...besideConnections(both)], isFollowed: false },
];

const tell = both => {
  const holder = find('compared-told');
  if (both.length < 2) return holder.replaceChildren(element('p', { class: 'quiet' }, WORDS));
  if (holder.children.length < PARTS.length) holder.replaceChildren(...PARTS.map(() => element('div')));
  const isTried = both.some(({ view }) => view.isTried);
  return PARTS.forEach(({ draw, isFollowed }, place) => isFollowed || !isTried ? holder.children[place].replaceChildren(...draw(both)) : null);
};

const hands = () => {
  const isBoth = kept.size === 2;
  for (const name of NAMES) {
    find(`take-${name}`).hidden = find(`forget-${name}`).hidden = !kept.has(name);
    find(`take-${name}`).disabled = kept.has(name) && isShown(kept.get(name).view);
    find(`see-${name}`).hidden = !kept.has(name) || !isSeen(kept.get(name).view);
  }
  find('swap').hidden = !isBoth;
};

const update = () => {
  if (!isTab('compare')) return;
  const both = sides(), seen = [...both.flatMap(({ name, view }) => [name, view]), display.view, kept.size ? display.chosenLine : null];
  if (drawn.length === seen.length && seen.every((each, place) => each === drawn[place])) return;
  drawn = seen;
  hands();
  tell(both);
};

export const variantsPanel = { update };

export const startVariants = () => {
  find('compare-hands').replaceChildren(...NAMES.map(name => button(`Take ${name} over`, () => take(name), { id: `take-${name}`, class: 'main' })),
    ...NAMES.map(name => button(`See ${name}`, () => seeVariant(name), { id: `see-${name}` })),
    button('Exchange A and B', swap, { id: 'swap' }), ...NAMES.map(name => button(`Forget ${name}`, () => forget(name), { id: `forget-${name}` })));
  for (const name of NAMES) find(`keep-${name}`).addEventListener('click', () => keep(name));
  find('compared-told').addEventListener('click', event => {
    const at = event.target.closest('[data-event]');
    if (at && display.view.domains.has(Number(at.dataset.event))) showRow(Number(at.dataset.event));
  });
  window.addEventListener('keydown', event => {
    const name = event.key.toUpperCase();
    if (!NAMES.includes(name) || !event.shiftKey || event.ctrlKey || event.altKey || event.metaKey) return;
    if (isField(event.target) || document.querySelector('dialog[open]')) return;
    event.preventDefault();
    keep(name, true);
  });
};
