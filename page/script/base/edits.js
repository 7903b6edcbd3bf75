// Edits of a network and of its working timetable as values: their kind, their numbers, and their line for the program. No
// other module has the words of edits.

import { wordsOf } from './times.js';

const WORDS = {
  addEvent: 'add event', dropEvent: 'drop event', addActivity: 'add activity', dropActivity: 'drop activity',
  span: 'span', weight: 'weight', ends: 'ends', fix: 'fix', window: 'window', unfix: 'unfix', time: 'time', untime: 'untime',
};
const FIRST_WORDS = [...new Set(Object.values(WORDS).map(words => words.split(' ')[0]))];
const KINDS = new Map(Object.entries(WORDS).map(([kind, words]) => [words, kind]));

// Its text is its line.
class Edit {
  constructor(kind, numbers, line) {
    this.kind = kind;
    this.numbers = numbers;
    this.line = line;
  }

  toString() {
    return this.line;
  }
}

// The edit of a line. It has no kind if the line is not an edit, as the program will reply.
export const readEdit = line => {
  const words = wordsOf(line), count = KINDS.has(words[0]) ? 1 : 2;
  return new Edit(KINDS.get(words.slice(0, count).join(' ')) || '', words.slice(count).map(word => Number(word) + 0), line);
};

// Whether a line begins like an edit, so that the program accepts or refuses it; anything else is a query.
export const beginsEdit = line => {
  const text = line.trimStart();
  return FIRST_WORDS.some(word => text.startsWith(word));
};

// Edits, some of which may be given as lines.
export const editsOf = given => given.map(each => each instanceof Edit ? each : readEdit(each));

// Typed text is read as the program reads it.
const made = (kind, given) => {
  const line = `${WORDS[kind]} ${given.join(' ')}`;
  return given.every(Number.isInteger) ? new Edit(kind, given, line) : readEdit(line);
};

/** For each kind, a function that builds an edit from its numbers.
 * @type {Record<keyof typeof WORDS, (...numbers: any[]) => Edit>} */
export const edit = Object.freeze(/** @type {any} */ (Object.fromEntries(Object.keys(WORDS).map(kind => [kind, (...given) => made(kind, given)]))));

// A window of one time is a fixed time.
export const windowEdit = (event, first, length) => length === 1 ? edit.fix(event, first) : edit.window(event, first, length);

export const activityEdit = ({ number, first, last, lower, upper, weight }) => edit.addActivity(number, first, last, lower, upper, weight);

// The edits that set these times.
export const timeEdits = times => [...times].map(([event, time]) => edit.time(event, time));
