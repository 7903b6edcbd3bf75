// The table of each line: stations down, and for each train the minutes at which it arrives and leaves across. On
// paper the diagram of each line is below it.

import { conflictsOfRow, detailsOf, isAlarming, isOutside, outsideText, shortConflicts } from '../session/conflicts.js';
import { diagramOf } from './diagram.js';
import { display } from '../session/display.js';
import { element, find, rowOf, setAttribute, setText, tableOf } from '../base/elements.js';
import { bareClock, domainText, eventName, windowText } from '../session/names.js';
import { isTab } from '../session/tabs.js';
import { isForward } from '../session/trains.js';

// The cells of the tables on the screen, by events; null if they must be built again.
let kept = null;

const lineTable = (line, made) => {
  const trains = [...line.trains].sort((one, other) => Number(isForward(line, other)) - Number(isForward(line, one)));
  const arrow = train => isForward(line, train) ? '↓' : '↑';
  const head = trains.map(train => element('th', { colspan: 2, scope: 'colgroup', class: 'begins' }, `to ${train.to} ${arrow(train)}`));
  const names = trains.flatMap(() => [element('th', { scope: 'col', class: 'begins' }, 'arr.'), 'dep.']);
  const rows = line.stations.map(station => rowOf(element('span', { 'data-station': station }, station), trains.flatMap(train => cells(train, station, made))));
  return tableOf('times', [['', ...head], ['Station', ...names]], rows);
};

const cells = (train, station, made) => {
  const stop = train.stops.find(each => each.station === station) || { arrival: null, departure: null };
  return [cell(stop.arrival, 'begins', made), cell(stop.departure, '', made)];
};

const cell = (event, name, made) => {
  const node = element('td', { class: name });
  if (event !== null) made.set(event, { node, name, drawn: '' });
  return node;
};

// Draws the changes in the cell of an event.
const drawCell = (view, event, drawnAt) => {
  const look = lookOf(view, event, [drawnAt.name, view.network.windows.has(event) ? 'held' : '']), text = minuteText(view, event);
  const drawn = `${text} ${Object.values(look).join()}`;
  if (drawnAt.drawn === drawn) return;
  drawnAt.drawn = drawn;
  for (const [name, value] of Object.entries(look)) setAttribute(drawnAt.node, name, value);
  setText(drawnAt.node, text);
};

// The look of a minute; its style shows what is violated there.
const lookOf = (view, event, words) => {
  const conflicts = conflictsOfRow(view, event);
  const faults = [isOutside(view, event) && outsideText(view, event), shortConflicts(conflicts)];
  const looks = [...words, isAlarming(view, event) ? 'alarm' : '', event === display.chosen ? 'chosen' : ''];
  return {
    class: looks.filter(Boolean).join(' '), 'data-event': event, 'data-told': faults.filter(Boolean).join('\n') || null,
    'data-activity': conflicts.length ? conflicts[0].number : null, title: detailsOf(conflicts) || null,
  };
};

// The minute of an event; if it has no time and only one minute is possible, that one in brackets.
export const minuteText = (view, event) => {
  const time = view.times.get(event), minutes = view.domains.get(event);
  if (time === undefined) return minutes.length === 1 ? `(${bareClock(minutes[0])})` : '–';
  return bareClock(time) + (isOutside(view, event) ? '✕' : '');
};

const headOf = (line, isPrinted) => {
  const pill = element('span', { class: 'pill' }, line.name);
  pill.style.background = line.color;
  return element('h3', {}, pill, line.stations.length > 1 ? ` ${line.stations[0]} – ${line.stations[line.stations.length - 1]}` : '',
    !isPrinted && ' ', !isPrinted && element('button', { class: 'small', type: 'button', 'data-alter': line.name, 'aria-label': `Change line ${line.name}` }, 'Change…'));
};

// Without lines: all events, each in a row.
const eventTable = view => {
  const rows = view.network.events.map(event => rowOf(eventName(event), eventCells(view, event), { 'data-event': event }));
  return tableOf('times', ['Event', 'time', 'can be at', 'held'], rows);
};

const eventCells = (view, event) => {
  const { period, windows } = view.network, held = windows.has(event) ? windowText(windows.get(event), period) : '';
  const minute = element('td', lookOf(view, event, []), minuteText(view, event));
  return [minute, domainText(view.domains.get(event), period), held];
};

export const tablesOf = (view, isPrinted, made = new Map()) => {
  if (!view.lines.length) return [eventTable(view)];
  const tables = view.lines.map(line => {
    const { drawn, note } = isPrinted && line.stations.length > 1 ? diagramOf(view, line) : { drawn: null, note: '' };
    return element('section', { class: 'line' }, headOf(line, isPrinted), lineTable(line, made), drawn, note && element('p', {}, note));
  });
  drawCells(view, made);
  return tables;
};

const drawCells = (view, made) => made.forEach((drawnAt, event) => drawCell(view, event, drawnAt));

const update = view => {
  if (!isTab('tables')) return;
  if (kept && view.lines.length) return drawCells(view, kept);
  kept = new Map();
  find('tables').replaceChildren(...tablesOf(view, false, kept));
};

export const tablesPanel = { build: () => { kept = null; }, update };
