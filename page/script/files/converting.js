// Converts files of other forms into the one that the program and the page read: UTF-8, with semicolons or commas between fields,
// and points in numbers. Each conversion is reported. The file itself does not change. Texts are processed in parts.

import { encodingOf, textsIn } from './decoding.js';
import { quoted } from '../base/labels.js';
import { fieldsIn, recordAt, rowsOfParts } from '../base/records.js';

// How many columns of numbers a file has, and the first of them that can have a decimal comma.
const COLUMNS = { activities: [6, 3], fixed: [2, 1], times: [2, 1], windows: [3, 1] };
const OF_ROWS = [...Object.keys(COLUMNS), 'places', 'labels'];
const WORDS = { 'utf-16le': 'read as UTF-16', 'utf-16be': 'read as UTF-16', 'windows-1252': 'read as Windows-1252' };
// No number is this long, and no row of numbers.
const LONG = 1 << 20, LONGEST_ROW = 10000;

// Searches a text for tabs between fields of its first row, which is neither blank nor a comment; beside commas and
// semicolons they are blanks. It returns null if that is not yet known.
const tabsFinder = () => {
  let isRow = false, isComment = false, isFilled = false, isTab = false, isFound = false;
  return letter => {
    if (letter === '\n' || letter === '\r') {
      if (isRow) return isFound;
      [isComment, isFilled, isTab] = [false, false, false];
    } else if (isComment) return null;
    else if (!isRow && letter === '#') isComment = true;
    else if (letter === ';') return false;
    else if (letter === ',') [isRow, isFilled, isTab] = [true, false, false];
    else if (letter === '\t') isTab = isFilled;
    else if (letter.trim()) {
      isFound = isFound || isTab;
      [isRow, isFilled] = [true, true];
    }
    return null;
  };
};

// No more letters of the first rows are read than these.
const MOST_LOOKED_AT = 1 << 20;

// Whether tabs separate the fields of a text.
const isTabbed = texts => {
  const look = tabsFinder();
  let looked = 0, last = null;
  for (const text of texts) {
    for (let place = 0; place < text.length && last === null; place += 1) last = look(text[place]);
    looked += text.length;
    if (last !== null || looked >= MOST_LOOKED_AT) break;
  }
  return last === null ? look('\n') === true : last;
};

// A text that was split by tabs has semicolons, and may have commas.
const CUT = { hasSemicolon: true, hasComma: true };

// Whether a text has semicolons, and commas between digits.
const marksIn = texts => {
  let hasSemicolon = false, hasComma = false, before = '';
  for (const text of texts) {
    hasSemicolon = hasSemicolon || text.includes(';');
    hasComma = hasComma || /[0-9],[0-9]/.test(before + text);
    before = (before + text.slice(-2)).slice(-2);
  }
  return { hasSemicolon, hasComma };
};

// A field, or the beginning of one that is longer than allowed, and is refused by its mark.
const shortened = field => field.length > LONGEST_ROW ? `${field.slice(0, LONGEST_ROW)}…` : field;

// The row of a record; a blank one and a comment count as records too, and remain.
const rowOf = (fields, change) => {
  while (fields.length && fields[fields.length - 1] === '') fields.pop();
  if (!fields.length) return ' ';
  return fields[0].startsWith('#') ? '#' : change(fields).map(field => quoted(shortened(field))).join(';');
};

// The text with semicolons, and changed fields in each of its records, whose numbers remain.
const rewritten = function* (texts, separator, change = fields => fields) {
  for (const records of fieldsIn(texts, separator)) yield records.map(fields => `${rowOf(fields, change)}\n`).join('');
};

const DECIMALS = /((?:^|[;\r\n])[ \t]*"?[+-]?[0-9]+),([0-9]+)(?="?[ \t]*(?:[;\r\n]|$))/g;
// The name of a station may be a number, and places have no thousands.
const OF_PLACES = /(;[ \t]*"?[+-]?[0-9]+),([0-9]+)(?="?[ \t]*(?:[;\r\n]|$))/g;

// A comma before three digits may separate thousands; nothing decides which it is.
const isOfThousands = (whole, digits) => digits.length === 3 && /(?:^|[^0-9])[1-9][0-9]{0,2}$/.test(whole.slice(-5));

const isOfZeros = digits => digits === '0' || /^0+$/.test(digits);

// The text in parts, each of which except the first begins with one of the marks that end a field. One that is longer than any
// number is split.
const fieldsTogether = function* (texts, marks) {
  let rest = '';
  for (const text of texts) {
    let end = text.length - 1;
    while (end >= 0 && !marks.includes(text[end])) end -= 1;
    const isCut = end < 0 && rest.length > LONG, taken = isCut ? text.length : Math.max(0, end);
    if (taken) yield rest + text.slice(0, taken);
    rest = taken ? text.slice(taken) : rest + text;
  }
  yield rest;
};

// `tell` is called when a number had another form.
const withPoints = function* (texts, isOfPlaces, tell) {
  for (const text of fieldsTogether(texts, ';\r\n')) {
    const made = text.replace(isOfPlaces ? OF_PLACES : DECIMALS, (all, whole, digits) => {
      if (!isOfPlaces && isOfThousands(whole, digits)) return all;
      return whole + (isOfZeros(digits) ? '' : `.${digits}`);
    });
    if (made !== text) tell();
    yield made;
  }
};

// Numbers in quotes, each without a decimal comma before zeros. The possibly incomplete end of a part goes to the next one.
const withoutZeros = function* (texts, tell) {
  let rest = '';
  for (const text of texts) {
    rest += text;
    const made = [];
    let end = 0;
    for (const found of rest.matchAll(/"([+-]?[0-9]+),0+"/g)) {
      made.push(rest.slice(end, found.index), found[1]);
      end = found.index + found[0].length;
    }
    if (made.length) tell();
    const begun = rest.lastIndexOf('"'), cut = begun >= end && rest.length - begun < LONG ? begun : rest.length;
    made.push(rest.slice(end, cut));
    yield made.join('');
    rest = rest.slice(cut);
  }
  yield rest;
};

const WHOLES = /((?:^|[;,\r\n])[ \t]*"?[+-]?[0-9]+)[.]0+(?="?[ \t]*(?:[;,\r\n]|$))/g;
const CLOCKS = /((?:^|[;,\r\n])[ \t]*"?)([0-9]{1,4}):([0-5][0-9])(?="?[ \t]*(?:[;,\r\n]|$))/g;

// Numbers without points before zeros, and clock times as minutes; `tell` is called with the word for each that occurs.
const withMinutes = function* (texts, tell) {
  for (const text of fieldsTogether(texts, ';,\r\n')) {
    const whole = text.replace(WHOLES, '$1'), made = whole.replace(CLOCKS, (_, before, hours, minutes) => `${before}${60 * hours + Number(minutes)}`);
    if (whole !== text) tell('zeros after points left out');
    if (made !== whole) tell('times of the clock read as minutes');
    yield made;
  }
};

// Whether the first record is longer than a row of numbers is.
const isLongRow = text => text.length > LONGEST_ROW && recordAt(text.slice(0, LONGEST_ROW), 0, ',').next > LONGEST_ROW;

const isNumber = field => /^[+-]?[0-9]+$/.test(field);

// The column whose decimal comma splits it in two among commas, if it is the only possible one, in all rows; otherwise 0.
const cutColumn = (texts, [count, first]) => {
  const [head = ''] = texts();
  if (isLongRow(head)) return 0;
  let columns = null;
  for (const fields of rowsOfParts(texts(), ',')) {
    if (fields.length !== count + 1 || !fields.every(isNumber)) return 0;
    columns = (columns || [...Array(count).keys()].slice(first)).filter(column => isOfZeros(fields[column + 1]));
  }
  return columns && columns.length === 1 ? columns[0] : 0;
};

// The text with points in its numbers; null if none has a decimal comma.
const mended = (texts, kind, isCut, tell) => {
  const { hasSemicolon, hasComma } = isCut ? CUT : marksIn(texts());
  if (!hasComma) return null;
  if (hasSemicolon) return withPoints(texts(), kind === 'places', tell);
  if (!(kind in COLUMNS)) return null;
  const column = cutColumn(texts, COLUMNS[kind]), [count] = COLUMNS[kind];
  if (!column) return withoutZeros(texts(), tell);
  tell();
  return rewritten(texts(), ',', fields => fields.filter((_, place) => place !== column + 1 || fields.length === count));
};

// Passes the text of a file of a kind to `write`, part by part, and returns the conversions that were made.
export const convert = (kind, source, write) => {
  const encoding = encodingOf(source), notes = WORDS[encoding] ? [WORDS[encoding]] : [], isOfRows = OF_ROWS.includes(kind);
  const given = () => textsIn(source, encoding), isCut = isOfRows && isTabbed(given()), texts = isCut ? () => rewritten(given(), '\t') : given;
  if (isCut) notes.push('tabs taken as separators');
  const words = new Set(), tell = (word = 'decimal commas read as points') => words.add(word);
  const whole = (isOfRows && kind !== 'labels' && mended(texts, kind, isCut, tell)) || texts();
  for (const text of kind in COLUMNS ? withMinutes(whole, tell) : whole) write(text);
  return [...notes, ...words];
};
