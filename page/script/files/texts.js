// A network from the texts of its files.

import { play } from '../search/asking.js';
import { beginsEdit, edit, timeEdits } from '../base/edits.js';
import { noLabels, readLabels, readPlaces } from '../base/labels.js';
import { EVENTS, numberIn, numbersIn, RESIDUES, rowsIn } from '../base/records.js';
import { openBase } from '../session/session.js';
import { isAdopt, timesOfFile } from '../base/times.js';
import { faultInWords } from '../session/wording.js';

// Edits and lines about times; a file of lines may also have queries, which change nothing.
const makes = line => beginsEdit(line) || /^\s*adopt/.test(line);
const BLANK = 32, MOST_OF_A_LINE = 4096, MOST_LINES = 1000000;
// This many lines are played at once; more of them, and a search, run where they can be stopped.
const MOST_AT_ONCE = 1000;

const periodOf = text => {
  const rows = rowsIn(text), [first, second] = [rows.next().value, rows.next().value];
  const isOne = first && !second && first.fields.length === 1 && /^[0-9]+$/.test(first.fields[0]);
  if (!isOne) throw new Error('period file: it is no file of one period');
  return numberIn('period', first.number, 1, first.fields[0], EVENTS);
};

const isLong = line => line.length > MOST_OF_A_LINE || (line.length > MOST_OF_A_LINE / 3 && new TextEncoder().encode(line).length > MOST_OF_A_LINE);

const linesOf = text => {
  const made = [];
  for (let start = 0, number = 1; start < text.length; number += 1) {
    const feed = text.indexOf('\n', start), end = feed < 0 ? text.length : feed, line = text.slice(start, end);
    if (number > MOST_LINES) throw new Error(`lines file: it has more than ${MOST_LINES.toLocaleString('en')} lines`);
    if (isLong(line)) throw new Error(`lines file: line ${number} is longer than ${MOST_OF_A_LINE} bytes`);
    if (makes(line)) made.push(line.trim());
    start = end + 1;
  }
  return made;
};

// Whether a text, or bytes, have only blanks.
const isBlank = given => typeof given === 'string' ? !given.trim() : !given.some(byte => byte > BLANK);

// The first lines of a run that has the network of these files.
const baseOf = ({ activities = '', fixed = '', times = '', events = '', windows = '' }, period, lines) => {
  if (activities.length && isBlank(activities)) throw new Error('activities file: there is nothing in it but blanks');
  const alone = numbersIn('events', events, [EVENTS]).flat();
  const held = numbersIn('windows', windows, [EVENTS, RESIDUES, RESIDUES]);
  const setup = [...alone.map(event => edit.addEvent(event).line), ...held.map(row => edit.window(...row).line), ...lines];
  // The program ignores times of events that do not exist yet.
  const late = alone.length ? timesOfFile({ times, period }, alone) : new Map();
  return { period, activities, fixed, times, setup: [...setup, ...timeEdits(late).map(({ line }) => line)] };
};

// Opens the texts of files by their kinds. Raises RunFault, FileFault and Error with the texts to show. If many lines are played,
// or one that searches, it returns a promise, of false if that is stopped. `again` has steps to repeat, as openBase accepts them.
export const openTexts = (texts, title, period = 60, again = undefined) => {
  const given = texts.period === undefined ? period : periodOf(texts.period);
  if (!(given >= 2 && given <= 1440)) throw new Error(`period ${given}: it has to be from 2 to 1440`);
  const lines = linesOf(texts.lines || ''), base = baseOf(texts, given, lines);
  const labels = texts.labels === undefined ? noLabels() : readLabels(texts.labels);
  const places = texts.places === undefined ? new Map() : readPlaces(texts.places);
  const open = made => openBase(made, { title, labels, places, again });
  if (lines.length <= MOST_AT_ONCE && !lines.some(isAdopt)) return open(base);
  return play(base).then(played => {
    if (played) open(played);
    return played !== null;
  }, fault => { throw faultInWords(fault, given, labels); });
};
