// A line of two variants in one drawing and one table, and the connections whose times differ.

import { isAlarming } from '../session/conflicts.js';
import { connectionsOf, takesText } from './connections.js';
import { display, within } from '../session/display.js';
import { element, elided, rowOf, tableOf } from '../base/elements.js';
import { frameOf, heightOf, sheetOf, waysOf } from './frames.js';
import { conflictMarks, marked } from './marking.js';
import { labelOf, signedMinutes, trainName } from '../session/names.js';
import { piecesOf, stretchOf } from './stretch.js';
import { minuteText } from './tables.js';
import { timedPieces } from '../session/trains.js';

const LOOKS = [{ width: 1.8, dashes: '5 4' }, { width: 2.6, dashes: null }], MOST_ROWS = 300;

const lineIn = (view, name) => view.lines.find(line => line.name === name);

// The trains of a variant on the stations of a drawing, with their violations; the variant's name precedes the required minutes.
const drawSide = (view, frame, line, name, look) => within(view, () => {
  const known = new Set(frame.heights.keys()), trains = line ? line.trains.flatMap(train => piecesOf(train, known)) : [];
  const here = { ...frame, events: new Set(trains.flatMap(train => train.events)) };
  const paths = trains.flatMap(whole => timedPieces(view, whole)).flatMap(({ train, minutes }) => {
    const points = minutes.map((minute, place) => [minute, heightOf(frame, train.events[place])]);
    return marked(waysOf(frame, points, line.color, look.width, look.dashes), { 'data-event': train.events[0] });
  });
  const { paths: broken, labels } = conflictMarks(view, here, 'on the line', []);
  for (const label of labels) label.prepend(`${name}: `);
  return { paths: [...paths, ...broken], labels };
});

// A line of both variants, each { name, view }, in one drawing: the first dashed, the second solid; null if it has no path.
export const besideDiagram = (sides, name) => {
  const lines = sides.map(({ view }) => lineIn(view, name)), [longest] = lines.filter(Boolean).sort((one, other) => other.stations.length - one.stations.length);
  const of = sides[lines.indexOf(longest)].view;
  if (longest.stations.length < 2) return null;
  const line = within(of, () => stretchOf(longest, display.chosen).line), frame = within(of, () => frameOf(line, of.network));
  const { page, clip } = sheetOf(frame, `Distance-time diagram of ${name} in ${sides.map(side => side.name).join(' and ')}`);
  sides.forEach(({ view, name: side }, place) => {
    const { paths, labels } = drawSide(view, frame, lines[place], side, LOOKS[place]);
    clip.append(...paths);
    page.append(...labels);
  });
  return page;
};

// The minute of an event in both variants: once if it is the same.
const minuteIn = ({ view }, event) => event === null || !view.domains.has(event) ? '' : within(view, () => minuteText(view, event));

const cell = (sides, event, look) => {
  const [one, other] = sides.map(side => minuteIn(side, event)), isMoved = one !== other;
  const isBroken = event !== null && sides.some(({ view }) => view.domains.has(event) && isAlarming(view, event));
  const names = [look, isMoved ? 'moved' : '', isBroken ? 'alarm' : ''].filter(Boolean).join(' ');
  const texts = isMoved ? [element('s', {}, one || '–'), ' ', element('b', {}, other || '–')] : [one];
  return element('td', { class: names, 'data-event': event }, ...texts);
};

// The trains of a line in both variants; one that both have, by its first event, is there once.
const trainsOf = lines => {
  const [before, after] = lines.map(line => line ? line.trains : []), known = new Set(after.map(({ events }) => events[0]));
  return [...after, ...before.filter(({ events }) => !known.has(events[0]))];
};

export const besideTable = (sides, name) => {
  const lines = sides.map(({ view }) => lineIn(view, name)), trains = trainsOf(lines), [first, second] = lines.map(line => line ? line.stations : []);
  const stations = (second || []).length >= (first || []).length ? [...new Set([...second, ...first])] : [...new Set([...first, ...second])];
  const heads = trains.map(({ to }) => element('th', { colspan: 2, scope: 'colgroup', class: 'begins' }, `to ${to}`));
  const kinds = trains.flatMap(() => [element('th', { scope: 'col', class: 'begins' }, 'arr.'), 'dep.']);
  const rows = stations.map(station => rowOf(station, trains.flatMap(train => {
    const stop = train.stops.find(each => each.station === station) || { arrival: null, departure: null };
    return [cell(sides, stop.arrival, 'begins'), cell(sides, stop.departure, '')];
  })));
  return tableOf('times', [['', ...heads], ['Station', ...kinds]], rows);
};

// For each connection its minutes in a variant, '' if it does not exist there.
const takesIn = ({ view }) => within(view, () => new Map(connectionsOf(view).map(each => [each.number, { each, ...takesText(view, each) }])));

const NONE = { text: '', isViolated: false };

const connectionRow = (sides, taken, number) => {
  const [before, after] = taken.map(each => each.get(number) || NONE), { view } = sides[after.each ? 1 : 0], { each } = after.each ? after : before;
  const [from, to, station] = within(view, () => [trainName(labelOf(each.first), each.first), trainName(labelOf(each.last), each.last), labelOf(each.first).station]);
  const cells = [before, after].map(({ text, isViolated }) => element('td', { class: isViolated ? 'alarm' : null }, text || 'not there'));
  const more = before.had === undefined || after.had === undefined ? '' : signedMinutes(after.had - before.had);
  return rowOf(station, [from, to, ...cells, more], { 'data-event': each.first });
};

// The connections whose minutes differ, and how many are equal.
export const besideConnections = sides => {
  const taken = sides.map(takesIn), numbers = [...new Set(taken.flatMap(each => [...each.keys()]))];
  const isOther = number => (taken[0].get(number) || NONE).text !== (taken[1].get(number) || NONE).text, other = numbers.filter(isOther);
  const same = numbers.length - other.length, note = elided(other.length, MOST_ROWS, 'connections');
  const heads = ['station', 'from', 'into', ...sides.map(({ name }) => `takes in ${name}`), 'change'];
  const rows = other.slice(0, MOST_ROWS).map(number => connectionRow(sides, taken, number));
  const words = other.length ? `${same} take the same in both.` : same ? `All ${same} take the same in both.` : 'There are none.';
  return [rows.length ? tableOf('times', heads, rows) : null, element('p', { class: 'quiet' }, [note, words].filter(Boolean).join(' '))].filter(Boolean);
};
