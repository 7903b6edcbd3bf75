// Gives long texts to what reads a stranger's, and patterns to what may match in more ways than one. Run by long_texts.py in a
// folder with the page's modules: `node readers.mjs readers`, and `node readers.mjs patterns FILE` with a list of patterns. It writes
// a line for each that is slow.

import fs from 'node:fs';
import { convert } from './files/converting.js';
import { sourceOf } from './files/decoding.js';
import { minutesTyped } from './forms/fields.js';
import { helpFor } from './files/helping.js';
import { quoted, readLabels, readPlaces } from './base/labels.js';
import { EVENTS, numbersIn, recordsOf, rowsIn, trimmed } from './base/records.js';
import { timesOfFile, wordsOf } from './base/times.js';

const LONG = 4000000, SHORT = LONG / 4, LEEWAY = 100, TOO_LONG = 5000;

const all = rows => { for (const row of rows) if (!row) return; };
const bytesOf = text => new TextEncoder().encode(text);
const READERS = {
  records: text => all(recordsOf(text)), rows: text => all(rowsIn(text)),
  labels: readLabels, places: readPlaces, events: text => numbersIn('events', text, [EVENTS]),
  times: times => timesOfFile({ times, period: 60 }, [1, 2]),
  help: text => helpFor('activities file, record 2: wrong number of fields', () => ({ text })),
  minutes: minutesTyped, words: wordsOf, quoted, trimmed,
  ...Object.fromEntries(['activities', 'places', 'labels'].map(kind =>
    [`${kind} converted`, text => convert(kind, sourceOf(bytesOf(text)), () => {})])),
};

const filled = (part, length) => part.repeat(Math.ceil(length / part.length)).slice(0, length);
const LETTERS = [' ', '\t', '0', '"', ';', ',', '\n'], OTHERS = ['a'], PAIRS = [' \n', ' \t', '";', '1,', '"1', ' ;'];
const HEADS = { label: 'event; line\n1; a', place: 'A; 1; 1', number: '1; ', quotes: 'event; line\n1; "', tabs: 'a\tb\n1\t' };
const TEXTS = [
  ...[...LETTERS, ...OTHERS, ...PAIRS, '1,0;', '"1,0"'].map(part => [JSON.stringify(part), length => filled(part, length)]),
  ...Object.entries(HEADS).flatMap(([name, head]) => [' ', '1', '"'].map(part =>
    [`${name}, ${JSON.stringify(part)}`, length => `${head}${filled(part, length)}x`])),
];

const took = (read, text) => {
  const before = process.cpuUsage();
  try {
    read(text);
  } catch (fault) {
    // A fault is an answer.
  }
  const { user, system } = process.cpuUsage(before);
  return (user + system) / 1000;
};

// The milliseconds that a reader may take: a second, and more where a processor that others share is slower than it is alone.
const ALONE = 10;
const mostNow = () => {
  const text = filled('a', LONG), letters = each => { for (let place = 0; place < each.length; place += 1) if (each.charCodeAt(place) === 0) return; };
  return 1000 * Math.max(1, took(letters, text) / ALONE);
};

const readAll = () => {
  let count = 0;
  for (const [name, make] of TEXTS) {
    const [short, long] = [SHORT, LONG].map(make);
    for (const [reader, read] of Object.entries(READERS)) {
      count += 1;
      // What is slow at once is not tried at full length; what is slow once, as another process may make it, is tried again.
      const slowness = () => {
        const one = took(read, short), four = one > TOO_LONG ? Infinity : took(read, long);
        return four > 2 * LEEWAY && (four > 8 * one + LEEWAY || four > mostNow()) ? [one, four] : null;
      };
      const slow = slowness() && slowness();
      if (slow) console.log(`${reader} of ${name}: ${slow.map(Math.round).join(' and ')} ms`);
    }
  }
  console.log(`${count} tried`);
};

const OF_PATTERNS = [...LETTERS, 'a', '.', '-', ':', '=', '/'], HEADINGS = ['', ';1,', '"1', '#network=00000000.'];

// So many letters are matched in a hundredth of this where each is looked at once, and in ten times this where each begins a way.
const MOST_LETTERS = 20000, MOST_OF_A_MATCH = 30;

const isSlowOn = (pattern, text) => [0, 1].every(() => took(each => each.replace(pattern, ''), text) > MOST_OF_A_MATCH);
const RUNS = OF_PATTERNS.flatMap((one, place) => OF_PATTERNS.slice(place).flatMap(other => HEADINGS.map(head => `${head}${filled(one + other, MOST_LETTERS)}!`)));

const matchAll = patterns => {
  for (const { source, flags, where } of patterns) {
    const pattern = new RegExp(source, flags), slow = RUNS.find(text => isSlowOn(pattern, text));
    if (slow !== undefined) console.log(`${where}: /${source}/${flags} of ${JSON.stringify(slow.slice(0, 24))}`);
  }
  console.log(`${patterns.length} tried`);
};

if (process.argv[2] === 'readers') readAll();
else matchAll(JSON.parse(fs.readFileSync(process.argv[3], 'utf8')));
