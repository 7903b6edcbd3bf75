// The cause of a fault in a file that was not converted, and its remedy.

import { HELP_WITH_SHEETS } from './forms.js';
import { fieldsIn } from '../base/records.js';

const FAULT = /^(\w+) file, record ([0-9]+): /;
const TABS = 'Tabs stand between its fields. Save it with semicolons between them, or with commas.';
const DECIMAL = 'It has decimal commas. Write whole numbers, as 2, or with a point, as 2.0.';

// Among semicolons a decimal comma is in a field; among commas it splits a number into two fields.
const hasDecimalComma = (fields, hasSemicolon, kind) => hasSemicolon ? fields.some(field => /^[+-]?[0-9]+,[0-9]+$/.test(field))
  : fields.length > (kind === 'activities' ? 6 : 2) && fields.every(field => /^[+-]?[0-9]+$/.test(field.trim()));

const thousandsIn = fields => fields.find(field => /^[+-]?[1-9][0-9]{0,2},[0-9]{3}$/.test(field));

// The fields of a record by its number; null if there is none.
const fieldsOf = (texts, hasSemicolon, number) => {
  let left = number;
  for (const records of fieldsIn(texts, hasSemicolon ? ';' : ',')) {
    if (records.length >= left) return records[left - 1].filter((field, place, { length }) => field || place < length - 1);
    left -= records.length;
  }
  return null;
};

const FRACTION = /^[+-]?[0-9]+[.,][0-9]*[1-9][0-9]*$/;

// The columns of a file of activities or of times that have numbers of events and activities, followed by those of minutes.
const NUMBERS = { activities: 3, times: 1, fixed: 1, windows: 1 };

// The text instead of a number.
const wordsFor = (kind, fields, place) => {
  const field = fields[place];
  if (FRACTION.test(field)) return `${field} is no whole number. Minutes are whole here: round it, or count half minutes, with twice the period.`;
  if (!/[A-Za-z\u00c0-\uffff]/.test(field)) return '';
  return place < NUMBERS[kind] ? 'Events and activities have numbers here. Give each name a number, and save the names in a file of labels, as “event; line; to; station; kind”.'
    : 'Write minutes as a whole number, as 3, or as 0:03.';
};

const LONG_EVENTS = 'A file of events has their numbers alone, and just those that no activity has. If it is LinTim’s Events-periodic.giv, '
  + 'choose “not to be opened” for it, or read the whole folder by python3 -m pespbench from-lintim.';

// The help for a fault in a file; '' if no cause is found. `fileOf` returns the file of a kind: its `texts` one after another,
// and whether it `has` a letter.
export const helpFor = (fault, fileOf) => {
  if (fault.includes('is a spreadsheet')) return HELP_WITH_SHEETS;
  const [, kind, number] = FAULT.exec(fault) || [], file = kind && fileOf(kind);
  const hasSemicolon = Boolean(file) && file.has(';'), fields = file && fieldsOf(file.texts(), hasSemicolon, Number(number));
  if (!fields || !fields.length) return '';
  if (fields[0].includes('\t')) return TABS;
  const thousands = hasSemicolon && thousandsIn(fields);
  if (thousands) return `${thousands} can be ${thousands.split(',')[0]} or ${thousands.replace(',', '')}. Write it without the comma.`;
  if (hasDecimalComma(fields, hasSemicolon, kind)) return DECIMAL;
  if (kind === 'events' && fields.length > 1) return LONG_EVENTS;
  const [, place] = /: field ([0-9]+) is not a number$/.exec(fault) || [];
  return place && kind in NUMBERS ? wordsFor(kind, fields, Number(place) - 1) : '';
};
