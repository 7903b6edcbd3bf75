// The page's own files (labels, places, windows, events, the period), split into records as docs/FORMATS.md defines. Each letter
// is read once, whoever wrote the file.

// No file has this many columns. If a record has more fields, the last nonempty one is kept, so that their number remains wrong.
const MOST_FIELDS = 100;
const MOST_OF_A_FIELD = 100000;
const RETURN = 13, FEED = 10, QUOTE = 34, TAB = 9, BLANK = 32;

const isBlank = code => code === BLANK || code === TAB;

// A part of a text without the letters of some kind at its ends.
export const trimmed = (text, isLeft = isBlank, from = 0, to = text.length) => {
  let start = from, end = to;
  while (start < end && isLeft(text.charCodeAt(start))) start += 1;
  while (end > start && isLeft(text.charCodeAt(end - 1))) end -= 1;
  return text.slice(start, end);
};

// The place of the quote that ends a quoted field, or the end of the text.
const endOfQuotes = (text, start) => {
  let place = start;
  for (; place < text.length; place += 1) {
    if (text.charCodeAt(place) !== QUOTE) continue;
    if (text.charCodeAt(place + 1) !== QUOTE) break;
    place += 1;
  }
  return place;
};

// The text between quotes, in which two quotes mean one. If it is longer than any field may be, its beginning is kept with a mark
// by which it is refused.
const unquoted = (text, start, end) => {
  const isLong = end - start > MOST_OF_A_FIELD, inside = text.slice(start, isLong ? start + MOST_OF_A_FIELD : end).replace(/""/g, '"');
  return isLong ? `${inside}…` : inside;
};

const endOfField = (text, start, separator) => {
  let place = start;
  for (; place < text.length; place += 1) {
    const code = text.charCodeAt(place);
    if (code === separator || code === FEED || code === RETURN) break;
  }
  return place;
};

// The fields of the record that begins at a place, and the start of the next one.
export const recordAt = (text, start, separator) => {
  const fields = [], code = separator.charCodeAt(0);
  for (let place = start; ;) {
    const isQuoted = text.charCodeAt(place) === QUOTE, last = isQuoted ? endOfQuotes(text, place + 1) : place;
    const begin = isQuoted ? last + 1 : place, end = endOfField(text, begin, code);
    const field = isQuoted ? trimmed(unquoted(text, place + 1, last) + text.slice(begin, end)) : trimmed(text, isBlank, begin, end);
    if (fields.length < MOST_FIELDS) fields.push(field);
    else if (field) fields[MOST_FIELDS - 1] = field;
    if (text.charCodeAt(end) !== code) return { fields, next: end + (text.startsWith('\r\n', end) ? 2 : 1) };
    place = end + 1;
  }
};

const isEmpty = (text, start, next) => next <= start + (text.startsWith('\r\n', start) ? 2 : 1);

// Whether a record has data, and is neither blank nor a comment. An empty text after its last separator is not a field.
const hasData = (fields, isQuoted = false) => {
  if (fields[fields.length - 1] === '') fields.pop();
  return fields.length > 0 && (isQuoted || !fields[0].startsWith('#'));
};

// The records with data, one after another, each with its number. If first fields are names, a quoted one never begins a comment.
export const recordsOf = function* (text, isNamed = false) {
  const whole = text.replace(/^\uFEFF/, ''), separator = whole.includes(';') ? ';' : ',';
  let number = 0;
  for (let place = 0; place < whole.length;) {
    const { fields, next } = recordAt(whole, place, separator);
    if (!isEmpty(whole, place, next)) {
      number += 1;
      if (hasData(fields, isNamed && whole[place] === '"')) yield { number, fields };
    }
    place = next;
  }
};

// The fields of the records of a text that arrives in parts, returned as they become complete; an empty line is not a record.
export const fieldsIn = function* (texts, separator) {
  let rest = '', least = 0, isBegun = false;
  const taken = isEnd => {
    const found = [];
    let start = 0;
    while (start < rest.length) {
      const { fields, next } = recordAt(rest, start, separator);
      // A line feed may still follow.
      if (next >= rest.length && !isEnd) break;
      if (!isEmpty(rest, start, next)) found.push(fields);
      start = next;
    }
    rest = rest.slice(start);
    least = 2 * rest.length;
    return found;
  };
  for (const text of texts) {
    rest += isBegun ? text : text.replace(/^\uFEFF/, '');
    isBegun = isBegun || text !== '';
    // An incomplete record is read again once there is twice as much of it.
    if (rest.length > least) yield taken(false);
  }
  yield taken(true);
};

// The fields of its rows with data, without a header.
export const rowsOfParts = function* (texts, separator) {
  let isFirst = true;
  for (const some of fieldsIn(texts, separator)) {
    for (const fields of some.filter(each => hasData(each))) {
      if (!isFirst || !isHeader(fields)) yield fields;
      isFirst = false;
    }
  }
};

const isHeader = fields => /^[A-Za-z]/.test(fields[0]);

// The rows: a first record that begins with a letter is the header.
export const rowsIn = function* (text) {
  let isFirst = true;
  for (const record of recordsOf(text)) {
    if (!isFirst || !isHeader(record.fields)) yield record;
    isFirst = false;
  }
};

// The faults of the page's own files.
export class FileFault extends Error {
  constructor(name, record, what) {
    super(`${name} file, record ${record}: ${what}`);
  }
}

/** @type {[number, number]} */
export const EVENTS = [0, 999999999];

/** @type {[number, number]} */
export const RESIDUES = [0, 65535];

// The program accepts no more at any period.
const MOST_EVENTS = 20000;

// The number in a field, within limits. Raises FileFault.
export const numberIn = (name, record, place, text, [least, most]) => {
  if (!/^[+-]?[0-9]+$/.test(text)) throw new FileFault(name, record, `field ${place} is not a number`);
  const value = Number(text) + 0;
  if (value < least || value > most) throw new FileFault(name, record, `field ${place} is out of range`);
  return value;
};

// The rows of a file of numbers, an event first, each column with its limits. Raises FileFault.
export const numbersIn = (name, text, columns) => {
  const rows = new Map();
  for (const { number, fields } of rowsIn(text)) {
    if (fields.length !== columns.length) throw new FileFault(name, number, 'wrong number of fields');
    const row = fields.map((field, place) => numberIn(name, number, place + 1, field, columns[place]));
    if (rows.has(row[0])) throw new FileFault(name, number, 'event is repeated');
    if (rows.size === MOST_EVENTS) throw new FileFault(name, number, 'too many events');
    rows.set(row[0], row);
  }
  return [...rows.values()];
};
