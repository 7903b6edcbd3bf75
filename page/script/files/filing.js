// The files of the state shown, in the forms that the program and the Python package read, and which of them were saved.

import { display } from '../session/display.js';
import { labelsText, placesText } from '../base/labels.js';
import { rowsOf, rowsText } from '../base/network.js';
import { trimmed } from '../base/records.js';
import { session } from '../session/session.js';

const FORBIDDEN = /[\\/:*?"<>|\u0000-\u001f\u007f]+/g;
// Of a longer title no more is used.
const MOST_OF_A_TITLE = 1000;
const HEADERS = {
  activities: 'activity; from; to; lower; upper; weight', fixed: 'event; time', windows: 'event; first; length', events: 'event',
  times: 'event; time',
};

// The files by name.
export const filesToSave = () => filesOf(display.view.network, display.view.times);

export const filesOf = (network, times, labels = display.labels) => {
  const rows = rowsOf(network, times), files = {};
  for (const [name, header] of Object.entries(HEADERS)) files[name] = `${header}\n${rowsText(rows[name])}`;
  files.period = `period\n${network.period}\n`;
  if (labels.events.size || labels.kinds.size || labels.cost) files.labels = labelsText(labels);
  if (display.places.size) files.places = placesText(display.places);
  return files;
};

// The name of a folder and its archive: without characters that some system forbids in file names.
export const folderName = () => trimmed(session.opened.title.slice(0, MOST_OF_A_TITLE).replace(FORBIDDEN, '-'), code => /[\s.-]/.test(String.fromCharCode(code)))
  .slice(0, 100).trim() || 'network';

// The files of a folder, by their paths in it.
export const folderFiles = files => Object.fromEntries(Object.entries(files).map(([name, text]) => [`${folderName()}/${name}`, text]));

// The texts of the files saved last, of the network that was open then.
let saved = { opened: null, files: new Map() };

const savedNow = () => saved.opened === session.opened ? saved.files : new Map();

// Some files were saved, in addition to earlier ones.
export const noteSaved = files => {
  saved = { opened: session.opened, files: new Map([...savedNow(), ...Object.entries(files)]) };
};

// The state shown is saved if each of its files is the one that was saved last, or that was opened.
export const isSaved = () => {
  const { opened } = session, given = savedNow();
  if (!session.steps.length && !given.size) return true;
  const before = filesOf(opened.network, opened.times, opened.labels);
  return Object.entries(filesToSave()).every(([name, text]) => text === (given.has(name) ? given.get(name) : before[name]));
};
