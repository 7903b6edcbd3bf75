// Finds stations, lines, trains and events by a typed part of their names: all words must occur, in any order, without accents.

import { display } from '../session/display.js';
import { find, say } from '../base/elements.js';
import { showBar, showRow } from '../forms/events.js';
import { isField } from '../forms/fields.js';
import { fillFinder } from './finder.js';
import { clock, eventName, labelOf, trainName } from '../session/names.js';
import { lookAt } from './netgraph.js';
import { showTab } from '../session/tabs.js';

const MOST = { station: 5, line: 5, train: 5, event: 8 };
const fold = text => text.normalize('NFD').replace(/\p{M}/gu, '').toLowerCase();
let known = null;

const countsOf = events => {
  const counts = new Map();
  for (const event of events) {
    const { station } = labelOf(event);
    if (station) counts.set(station, (counts.get(station) || 0) + 1);
  }
  return counts;
};

const atText = event => display.view.times.has(event) ? ` at ${clock(display.view.times.get(event))}` : '';

const entry = (kind, value, name, note) => ({ kind, value, name, note, folded: fold(name) });

// All entries, gathered when the first letter is typed.
const entries = ({ network, lines, trains }) => [
  ...[...countsOf(network.events)].map(([name, count]) => entry('station', name, name, `station, ${count} event${count > 1 ? 's' : ''}`)),
  ...lines.map(line => entry('line', line.name, line.name, `line, ${line.stations[0]} – ${line.stations[line.stations.length - 1]}`)),
  ...trains.map(train => entry('train', train.events[0], trainName(train, train.events[0]), `train from ${train.stations[0]}${atText(train.events[0])}`)),
  ...network.events.map(event => entry('event', event, eventName(event), atText(event).trim())),
];

// How well some words match an entry, 0 best; null if one is missing.
const rankOf = ({ kind, value, folded }, words) => {
  const text = words.join(' ');
  if (folded === text || (kind === 'event' && String(value) === text)) return 0;
  if (!words.every(word => folded.includes(word))) return null;
  if (folded.startsWith(text)) return 1;
  return words.every(word => ` ${folded}`.includes(` ${word}`)) ? 2 : 3;
};

// The matches of each kind, the best first, and how many more there are.
export const matches = (text, kinds) => {
  const words = fold(text).split(/\s+/).filter(Boolean);
  if (!words.length) return { found: [], more: 0 };
  known = known || entries(display.view);
  const ranked = known.filter(({ kind }) => kinds.includes(kind)).map(each => ({ each, rank: rankOf(each, words) }))
    .filter(({ rank }) => rank !== null);
  ranked.sort((one, other) => one.rank - other.rank);
  const found = kinds.flatMap(kind => ranked.filter(({ each }) => each.kind === kind).slice(0, MOST[kind]));
  found.sort((one, other) => Number(other.rank === 0) - Number(one.rank === 0));
  return { found: found.map(({ each }) => each), more: ranked.length - found.length };
};

const firstAt = station => display.view.network.events.find(event => labelOf(event).station === station);

const showLine = name => {
  showRow(display.view.lines.find(line => line.name === name).trains[0].events[0]);
  showTab('diagram');
};

// Also on the netgraph, which may be larger than its view.
const showStation = station => {
  showRow(firstAt(station));
  lookAt(station);
};

const SHOW = { event: event => showRow(event), station: showStation, line: showLine, train: event => showBar(event) };

// Shows a match, and announces it.
const show = ({ kind, value, name, note }) => {
  SHOW[kind](value);
  say([name, note].filter(Boolean).join(': '));
};

export const findingPanel = { update: () => { known = null; } };

export const startFinding = () => {
  const kinds = ['station', 'line', 'train', 'event'], hint = 'a station, line, train or event';
  const input = fillFinder(find('finder'), { label: 'Find', hint, search: text => matches(text, kinds), take: show });
  window.addEventListener('keydown', event => {
    if (event.key !== '/' || event.ctrlKey || isField(event.target) || document.querySelector('dialog[open]')) return;
    event.preventDefault();
    input.focus();
  });
};
