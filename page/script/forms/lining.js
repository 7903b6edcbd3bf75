// A line that is entered as a table of its stops, and added as trains of one or of both directions, in one step.

import { display } from '../session/display.js';
import { element, find, setText } from '../base/elements.js';
import { showRow } from './events.js';
import { minuteOf, minutesTyped, submits } from './fields.js';
import { addActivity, addEvent, beginMade, doMade } from './making.js';
import { hourlyText, rhythmOf, tie } from './twins.js';

const SPAN = /^([0-9:]+)(?:\s*(?:-|–|to)\s*([0-9:]+))?$/;

const field = (name, label, more = {}) => element('input', { 'data-part': name, 'aria-label': label, autocomplete: 'off', ...more });

const row = () => element('tr', {}, element('td', {}, field('station', 'station', { list: 'known-stations' })),
  element('td', {}, field('dwell', 'minutes of the stop', { class: 'number', value: 1 })),
  element('td', {}, field('run', 'minutes to the next stop', { class: 'number' })));

// A span as `6`, or as `6 to 8`. Raises Error.
export const spanOf = (text, what) => {
  const found = SPAN.exec(text.trim());
  if (!found) throw new Error(`${what}: wanted minutes, as 6, or 6 to 8`);
  const [least, most] = [found[1], found[2] || found[1]].map(minutesTyped);
  if (Number(least) > Number(most)) throw new Error(`${what}: the least minutes of ${text} are more than the most`);
  return [least, most];
};

// The entered stops; the last has no run, and neither end a dwell. Raises Error.
const stopsTyped = () => {
  const valuesOf = each => [...each.querySelectorAll('input')].map(input => [input.dataset.part, input.value.trim()]);
  const rows = [...find('stops').rows].map(each => Object.fromEntries(valuesOf(each)));
  const stops = rows.filter(each => each.station);
  if (stops.length < 2) throw new Error('Two stops are wanted.');
  const again = stops.find(({ station }, place) => place && station === stops[place - 1].station);
  if (again) throw new Error(`${again.station} follows itself.`);
  return stops.map(({ station, dwell, run }, place) => ({
    station,
    dwell: place && place < stops.length - 1 ? spanOf(dwell, `stop at ${station}`) : null,
    run: place < stops.length - 1 ? spanOf(run, `run from ${station}`) : null,
  }));
};

const reversed = stops => [...stops].reverse().map((stop, place, all) => ({ ...stop, run: place < all.length - 1 ? all[place + 1].run : null }));

// Adds a train, with times that follow from its least minutes if it has a departure, and returns its events.
const addTrain = (made, stops, { name: line, weight }, leaves) => {
  const { station: to } = stops[stops.length - 1], events = [];
  let time = leaves;
  const event = (station, kind) => events.push(addEvent(made, { line, to, station, kind }, time));
  const join = (station, kind, span, step) => {
    time = time === null ? null : time + Number(span[0]);
    event(station, kind);
    addActivity(made, events.slice(-2), span, weight, step);
  };
  stops.forEach(({ station, dwell }, place) => {
    if (place) join(station, 'arrival', stops[place - 1].run, 'run');
    else event(station, 'departure');
    if (dwell) join(station, 'departure', dwell, 'dwell');
  });
  return events;
};

// The trains of one direction, which run at equal intervals and are tied.
const addTrains = (made, stops, line, id) => {
  const leaves = minuteOf(find(id)), { count, minutes } = line.rhythm;
  const trains = [...Array(count).keys()].map(place => addTrain(made, stops, line, leaves === null ? null : leaves + place * minutes));
  trains.slice(1).forEach((events, place) => tie(made, trains[0], events, (place + 1) * minutes));
};

const add = () => {
  const stops = stopsTyped(), before = display.labels.events, made = beginMade(), valueOf = id => find(id).value.trim();
  const line = { name: valueOf('line-name'), weight: valueOf('line-weight'), rhythm: rhythmOf(valueOf('line-hourly')) };
  addTrains(made, stops, line, 'line-leaves');
  if (find('both-ways').checked) addTrains(made, reversed(stops), line, 'line-back');
  doMade(made, `line ${line.name} added: ${stops[0].station} – ${stops[stops.length - 1].station}`);
  find('lining').close();
  showRow(display.view.network.events.find(event => !before.has(event) && made.events.has(event)));
};

const tell = text => setText(find('lining-fault'), text);

export const showLining = () => {
  const stations = new Set([...display.labels.events.values()].map(each => each.station));
  find('known-stations').replaceChildren(...[...stations].slice(0, 1000).map(station => element('option', { value: station })));
  find('lining-form').reset();
  find('line-hourly').value = hourlyText(1);
  find('stops').replaceChildren(row(), row(), row());
  tell('');
  find('lining').showModal();
};

export const startLining = () => {
  find('add-line').addEventListener('click', showLining);
  find('another-stop').addEventListener('click', () => {
    find('stops').append(row());
    find('stops').lastElementChild.querySelector('input').focus();
  });
  find('lining-close').addEventListener('click', () => find('lining').close());
  find('lining-form').addEventListener('submit', submits(add, tell));
};
