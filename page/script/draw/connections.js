// Connections by station, for paper: from which train to which passengers change, and how long that takes.

import { display } from '../session/display.js';
import { element, elided, rowOf, tableOf } from '../base/elements.js';
import { labelOf, lengthText, spanText, trainName } from '../session/names.js';
import { minuteText } from './tables.js';
import { minutesHad } from '../base/viewing.js';

const MOST_ROWS = 2000, NO_CONNECTIONS = ['headway', 'turn', 'turnaround', 'run', 'dwell'];
const HEADS = ['from', 'arrives', 'into', 'leaves', 'takes', 'may take'];

const isConnection = ({ number, first, last }) => {
  const [from, to] = [labelOf(first), labelOf(last)], kind = display.labels.kinds.get(number) || '';
  const isChange = from.kind === 'arrival' && to.kind === 'departure' && from.station !== '' && from.station === to.station;
  // Activities without a kind between trains of the same line are turnarounds.
  return isChange && !NO_CONNECTIONS.includes(kind) && (from.line !== to.line || (kind !== '' && from.to !== to.to));
};

// The connections by stations, in the order of their names, and within them by the minute of arrival.
export const connectionsOf = view => {
  const found = [...view.network.activities.values()].filter(isConnection), at = each => view.times.get(each.first);
  const stationOf = each => labelOf(each.first).station;
  const byName = (one, other) => stationOf(one).localeCompare(stationOf(other), 'en', { numeric: true });
  return found.sort((one, other) => byName(one, other) || at(one) - at(other) || one.number - other.number);
};

// The minutes of a connection, and their text; unknown if a time is missing.
export const takesText = (view, { number }) => {
  if (!view.tensions || !view.tensions.has(number)) return { text: '–', isViolated: false };
  const had = minutesHad(view, number), isViolated = view.violations.activities.has(number);
  return { had, text: `${lengthText(had)}${isViolated ? ' ✕' : ''}`, isViolated };
};

const row = (view, each) => {
  const { text: takes, isViolated } = takesText(view, each);
  const [from, to] = [each.first, each.last].map(event => trainName(labelOf(event), event));
  const cells = [minuteText(view, each.first), to, minuteText(view, each.last), takes, spanText(each.lower, each.upper)];
  return rowOf(from, cells.map((text, place) => element('td', { class: isViolated && place === 3 ? 'alarm' : null }, text)));
};

const stationTable = (view, station, rows) => element('section', { class: 'station' }, element('h3', {}, station),
  tableOf('times', HEADS, rows.map(each => row(view, each))));

// The connections of some lines, for printing; nothing if there are none.
export const connectionTables = (view, lines = view.lines) => {
  const names = new Set(lines.map(({ name }) => name)), isOf = event => names.has(labelOf(event).line), stations = new Map();
  const all = connectionsOf(view).filter(({ first, last }) => isOf(first) || isOf(last));
  for (const each of all.slice(0, MOST_ROWS)) {
    const { station } = labelOf(each.first);
    stations.set(station, [...stations.get(station) || [], each]);
  }
  if (!stations.size) return [];
  const note = elided(all.length, MOST_ROWS, 'connections');
  return [element('section', { class: 'connections' }, element('h2', {}, 'Connections by station'), note && element('p', {}, note),
    ...[...stations].map(([station, rows]) => stationTable(view, station, rows)))];
};
