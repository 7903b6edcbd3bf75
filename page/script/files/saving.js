// Saves the state: the files of a saved folder, in the forms that the program and the Python package read, and the lines.

import { zipOf } from './archive.js';
import { element, find } from '../base/elements.js';
import { filesToSave, folderFiles, folderName, isSaved, noteSaved } from './filing.js';
import { showHanding } from './handing.js';
import { askSession, journal } from '../session/session.js';

const TOLD = {
  activities: 'for the program', fixed: 'fixed times, for the program', times: 'the working timetable, for the program',
  windows: 'windows of more than one minute', events: 'events without activities', period: 'the period', labels: 'names',
  places: 'where stations lie',
  script: 'the network as commands',
  lines: 'the steps since the network was opened, as commands',
};

const linesFiles = () => ({
  script: askSession(['dump'])[0].map(line => `${line}\n`).join(''),
  lines: journal().map(line => `${line}\n`).join(''),
});

// Downloads some of the files as one.
const give = (name, blob, given) => {
  const address = URL.createObjectURL(blob), link = element('a', { href: address, download: name });
  document.body.append(link);
  link.click();
  link.remove();
  setTimeout(() => URL.revokeObjectURL(address), 10000);
  noteSaved(given);
};

const row = (name, text) => {
  const save = () => give(name, new Blob([text], { type: 'text/plain' }), { [name]: text });
  return element('li', {}, element('button', { type: 'button', class: 'link', onclick: save }, name), ` — ${TOLD[name]}`);
};

export const showSaving = () => {
  const files = filesToSave();
  find('saving-files').replaceChildren(...Object.entries({ ...files, ...linesFiles() }).map(([name, text]) => row(name, text)));
  find('save-all').onclick = () => give(`${folderName()}.zip`, zipOf(folderFiles(files)), files);
  showHanding();
  find('saving').showModal();
};

export const startSaving = () => {
  find('save').addEventListener('click', showSaving);
  window.addEventListener('beforeunload', event => {
    if (!isSaved()) event.preventDefault();
  });
  find('saving-close').addEventListener('click', () => find('saving').close());
};
