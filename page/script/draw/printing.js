// What is printed: name and date, the netgraph, the timetable and diagram of each line with their connections, and boards of stations.

import { boardOf } from './board.js';
import { connectionTables } from './connections.js';
import { costText } from '../session/costs.js';
import { display } from '../session/display.js';
import { element, find } from '../base/elements.js';
import { lengthText } from '../session/names.js';
import { netgraphOf } from './netgraph.js';
import { boardsOnPaper, linesOnPaper } from './papers.js';
import { session } from '../session/session.js';
import { tablesOf } from './tables.js';
import { untimedText } from '../base/timed.js';
import { countViolated } from '../base/viewing.js';

const summary = view => {
  const { title } = session.opened, count = countViolated(view);
  const date = new Date().toLocaleDateString('en-GB', { day: 'numeric', month: 'long', year: 'numeric' });
  const cost = [costText(view.cost), untimedText(view)].filter(Boolean).join(', ');
  const violated = count === null ? '' : count ? `, ✕ ${count} violated` : ', nothing is violated';
  const text = `Period ${lengthText(view.network.period)}: ${cost}${violated}. A frame: the event is held.`;
  return [element('h1', {}, title || 'Timetable'), element('p', { class: 'date' }, `Printed on ${date}`), element('p', {}, text)];
};

export const NETGRAPH_NOTE = 'Minutes stand to the right of the track as the train goes: in bold where it leaves, plain where it arrives.';

// The first page, with the netgraph if there are lines.
const front = view => {
  if (!view.lines.length) return element('section', { class: 'front' }, ...summary(view));
  const { drawn, note } = netgraphOf(view);
  return element('section', { class: 'front wide-page' }, ...summary(view), drawn, element('p', {}, [note, NETGRAPH_NOTE].filter(Boolean).join(' ')));
};

const paper = view => {
  const lines = linesOnPaper(view), known = lines.length === view.lines.length ? view : { ...view, lines };
  const tables = lines.length || !view.lines.length ? [...tablesOf(known, true), ...connectionTables(view, lines)] : [];
  return [front(view), ...tables, ...boardsOnPaper().map(station => boardOf(view, station))];
};

export const startPrinting = () => {
  window.addEventListener('beforeprint', () => find('printed').replaceChildren(...paper(display.view)));
  window.addEventListener('afterprint', () => find('printed').replaceChildren());
};
