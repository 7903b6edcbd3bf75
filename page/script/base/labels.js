// Names of events and activities, for people: the program never reads them.
//
//   event; line; to; station; kind
//   1; M; Cranley; Ashford; departure
//   activity; kind
//   11; run
//   cost; passenger minutes

import { EVENTS, FileFault, numberIn, recordsOf } from './records.js';

const WIDTHS = new Map([['event', 5], ['activity', 2]]);
// The longest name, and the most rows of either kind: more than a page can show, or the program accepts.
const MOST_LETTERS = 1000, MOST_ROWS = 200000;

export const noLabels = () => ({ events: new Map(), kinds: new Map(), cost: '' });

// The labels of a file. Raises FileFault.
export const readLabels = text => {
  const labels = noLabels();
  let table = '';
  for (const { number, fields } of recordsOf(text)) {
    if (WIDTHS.has(fields[0])) table = fields[0];
    else if (fields[0] === 'cost') takeCost(labels, number, fields);
    else takeRow(labels, table, number, fields);
  }
  return labels;
};

const checkLengths = (name, record, fields) => {
  const place = fields.findIndex(field => field.length > MOST_LETTERS);
  if (place >= 0) throw new FileFault(name, record, `field ${place + 1} is longer than ${MOST_LETTERS.toLocaleString('en')} letters`);
};

// The network's name for its cost.
const takeCost = (labels, record, fields) => {
  checkLengths('labels', record, fields);
  labels.cost = fields[1] || '';
};

const takeRow = (labels, table, record, fields) => {
  const fail = what => { throw new FileFault('labels', record, what); };
  if (!table) fail('there is no header `event; line; to; station; kind` or `activity; kind` above it');
  const number = numberIn('labels', record, 1, fields[0], EVENTS), taken = table === 'event' ? labels.events : labels.kinds;
  if (taken.has(number)) fail(`${table} is repeated`);
  if (taken.size === MOST_ROWS) fail(`more than ${MOST_ROWS.toLocaleString('en')} rows of this kind`);
  if (fields.slice(WIDTHS.get(table)).some(field => field)) fail('wrong number of fields');
  checkLengths('labels', record, fields);
  const [, first = '', to = '', station = '', kind = ''] = fields;
  taken.set(number, table === 'event' ? { line: first, to, station, kind } : first);
};

export const quoted = field => /[;"\n\r]|^[ \t#]|[ \t]$/.test(field) ? `"${field.replace(/"/g, '""')}"` : field;

// The text of a file with these labels.
export const labelsText = labels => {
  const rows = [['event', 'line', 'to', 'station', 'kind']];
  for (const [event, label] of labels.events) rows.push([String(event), label.line, label.to, label.station, label.kind]);
  if (labels.kinds.size) rows.push(['activity', 'kind']);
  for (const [activity, kind] of labels.kinds) rows.push([String(activity), kind]);
  if (labels.cost) rows.push(['cost', labels.cost]);
  return rows.map(row => row.map(quoted).join(';') + '\n').join('');
};

const MEASURE = /^[+-]?([0-9]+([.][0-9]*)?|[.][0-9]+)([eE][+-]?[0-9]+)?$/;

// The places of stations: `station; x; y`, x to the east and y to the north. Raises FileFault.
export const readPlaces = text => {
  const places = new Map();
  for (const { number, fields } of recordsOf(text, true)) {
    const [station, ...place] = fields;
    if (place.length === 2 && place[0] === 'x' && place[1] === 'y') continue;
    const isPlace = place.length === 2 && place.every(each => MEASURE.test(each) && Number.isFinite(Number(each)));
    if (!isPlace) throw new FileFault('places', number, 'wanted station; x; y');
    checkLengths('places', number, fields);
    if (places.size === MOST_ROWS) throw new FileFault('places', number, `more than ${MOST_ROWS.toLocaleString('en')} stations`);
    places.set(station, place.map(Number));
  }
  return places;
};

// The text of a file with these places.
export const placesText = places => ['station; x; y', ...[...places].map(([station, [x, y]]) => `${quoted(station)}; ${x}; ${y}`)]
  .map(row => `${row}\n`).join('');
