// Operations on a whole line: it is renamed, copied, given trains an hour or a stop, and dropped. Each is one step.

import { display } from '../session/display.js';
import { element, find, setText } from '../base/elements.js';
import { minutesTyped, submits } from './fields.js';
import { addStop, stopPlaces } from './halting.js';
import { spanOf } from './lining.js';
import { beginMade, copyEvents, doMade, dropEvents } from './making.js';
import { minutesText } from '../session/names.js';
import { hourlyText, rhythmOf, setRhythm, tiedTrains } from './twins.js';

let name = null;

const lineNow = () => display.view.lines.find(line => line.name === name);
const eventsOf = line => line.trains.flatMap(train => train.events);
const valueOf = id => find(id).value.trim();

// A name that no other line has. Raises Error.
const freeName = id => {
  const wanted = valueOf(id);
  if (display.view.lines.some(line => line.name === wanted)) throw new Error(`There is a line ${wanted} already. Give it another name.`);
  return wanted;
};

const rename = made => {
  const wanted = freeName('altered-name');
  for (const [event, label] of made.events) if (label.line === name) made.events.set(event, { ...label, line: wanted });
  return `line ${name} renamed ${wanted}`;
};

const copy = made => {
  const wanted = freeName('copy-name'), minutes = Number(minutesTyped(valueOf('copy-minutes'))), { period } = display.view.network;
  if (!Number.isInteger(minutes)) throw new Error(`${valueOf('copy-minutes')}: wanted minutes, as 6`);
  copyEvents(made, eventsOf(lineNow()), ((minutes % period) + period) % period, wanted);
  return `line ${name} copied ${minutesText(minutes)} later as ${wanted}`;
};

const hourly = made => {
  setRhythm(made, lineNow(), rhythmOf(valueOf('hourly')));
  if (!made.edits.length) throw new Error(`Line ${name} has ${valueOf('hourly')} trains an hour already.`);
  return `line ${name}: ${valueOf('hourly')} trains an hour`;
};

const stop = made => {
  const { one, other } = placeNow(), station = valueOf('stop-station'), fields = other === null ? ['before', 'dwell'] : ['before', 'dwell', 'after'];
  if (lineNow().stations.includes(station)) throw new Error(`Line ${name} has the stop ${station} already.`);
  const [before, dwell, after] = fields.map(field => spanOf(valueOf(`stop-${field}`), `stop at ${station}`));
  addStop(made, lineNow(), { one, other, station, before, dwell, after });
  return `line ${name} stops at ${station}, ${placeText({ one, other })}`;
};

const placeNow = () => stopPlaces(lineNow())[Number(valueOf('stop-between'))];
const placeText = ({ one, other }) => other === null ? `beyond ${one}` : `between ${one} and ${other}`;

// Beyond an end a train stops at that end, and does not continue from the new stop.
const tellPlace = () => {
  const { one, other } = placeNow(), isEnd = other === null, field = find('stop-after');
  setText(find('stop-where'), isEnd ? `at ${one}` : 'there');
  field.required = !isEnd;
  field.parentNode.hidden = isEnd;
};

const drop = made => {
  dropEvents(made, eventsOf(lineNow()));
  return `line ${name} dropped`;
};

const ACTS = { 'rename-line': rename, 'copy-line': copy, 'hourly-line': hourly, 'stop-line': stop, 'drop-line': drop };

const tell = text => setText(find('altering-fault'), text);

const act = id => {
  const made = beginMade();
  doMade(made, ACTS[id](made));
  find('altering').close();
};

// Opens the dialog of a line.
const showAltering = wanted => {
  name = wanted;
  const line = lineNow();
  setText(find('altering-title'), `Line ${name}`);
  for (const form of find('altering').querySelectorAll('form')) form.reset();
  find('altered-name').value = name;
  find('hourly').value = hourlyText(tiedTrains(line.trains[0]).length);
  find('stop-between').replaceChildren(...stopPlaces(line).map((each, place) => element('option', { value: place }, placeText(each))));
  if (stopPlaces(line).length) tellPlace();
  tell('');
  find('altering').showModal();
};

export const startAltering = () => {
  for (const id of Object.keys(ACTS)) find(id).addEventListener('submit', submits(() => act(id), tell));
  find('stop-between').addEventListener('change', tellPlace);
  find('altering-close').addEventListener('click', () => find('altering').close());
  find('alter-line').addEventListener('click', () => showAltering(find('line-of-diagram').value));
  find('tables').addEventListener('click', event => event.target.dataset.alter && showAltering(event.target.dataset.alter));
};
