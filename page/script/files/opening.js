// Opens files: dropped, chosen, or of a folder or an archive that was saved. The kind of each file follows from its name, and
// can be changed before it is opened. The program reads activities, fixed times and times; only the page reads its own files.

import { addLabels } from '../forms/adding.js';
import { MOST_BYTES } from './archive.js';
import { convertLong } from '../search/asking.js';
import { convert } from './converting.js';
import { sourceOf, textsIn } from './decoding.js';
import { element, find, say, setText } from '../base/elements.js';
import { isSaved } from './filing.js';
import { sheetsAmong } from './forms.js';
import { blobsOf, droppedFiles } from './gathering.js';
import { helpFor } from './helping.js';
import { showLining } from '../forms/lining.js';
import { session } from '../session/session.js';
import { stories } from './stories.js';
import { openTexts } from './texts.js';

const KINDS = {
  activities: 'activities', fixed: 'fixed times', times: 'times', labels: 'labels', places: 'places of stations', windows: 'windows',
  events: 'events without activities', period: 'the period', lines: 'commands', nothing: 'not to be opened',
};
// The first of these that occurs in a file's name determines its kind.
const WORDS = Object.entries({
  activit: 'activities', fixed: 'fixed', timetable: 'times', times: 'times', label: 'labels', place: 'places', window: 'windows', event: 'events',
  period: 'period', line: 'lines', script: 'lines', command: 'lines', journal: 'lines',
});
// The Worker converts files with more bytes than this, which can then be stopped.
const MOST_AT_ONCE = 2000000;
const NAMES_ALONE = 'The link has names alone: they take the place of those that the same events and activities have here.';
let files = [];

const kindOf = name => {
  const base = name.split('/').pop().toLowerCase(), word = WORDS.find(([text]) => base.includes(text));
  return word ? word[1] : 'nothing';
};

// Shows in the dialog what is wrong, and the remedy.
export const tellOpening = (text, help = '') => {
  setText(find('opening-fault'), text);
  setText(find('opening-help'), help);
};

// Shows the dialog, which names what would be lost.
const show = () => {
  find('opening-loss').hidden = isSaved();
  if (!find('opening').open) find('opening').showModal();
};

const hide = () => find('opening').open && find('opening').close();

const isOpenedAtOnce = ({ isAsked, isOfLink }) => {
  const kinds = files.map(file => file.kind);
  // Names alone are added to the open network, and lose nothing.
  if (kinds.join() === 'labels') return !isOfLink;
  return !isAsked && isSaved() && kinds.includes('period') && !kinds.includes('nothing') && new Set(kinds).size === kinds.length;
};

// Lists files with their kinds; they are opened at once if names and the period determine all and nothing is lost.
export const offerFiles = async (given, { isAsked = false, isOfLink = false } = {}) => {
  tellOpening('');
  try {
    files = (await blobsOf(await given)).map(([name, blob]) => ({ name, kind: kindOf(name), blob }));
  } catch (fault) {
    files = [];
    tellOpening(`The files cannot be read: ${fault.message}.`);
  }
  list();
  if (isOpenedAtOnce({ isAsked, isOfLink })) return openListed();
  if (isOfLink && files.length && isOfNames(files)) tellOpening('', NAMES_ALONE);
  return show();
};

const list = () => find('opening-files').replaceChildren(...files.map(file => {
  const select = element('select', { 'aria-label': `what ${file.name} is`, onchange: () => { file.kind = select.value; } },
    ...Object.entries(KINDS).map(([kind, text]) => element('option', { value: kind, selected: kind === file.kind }, text)));
  return element('li', {}, element('span', {}, file.name), ' ', select);
}));

const isOfNames = some => some.map(({ kind }) => kind).join() === 'labels';

// The files to open. Raises Error if they cannot be opened.
const wanted = async () => {
  const found = files.filter(({ kind }) => kind !== 'nothing'), kinds = found.map(({ kind }) => kind);
  const hasNetwork = kinds.includes('activities') || kinds.includes('lines'), [sheet] = await sheetsAmong(hasNetwork ? found : files);
  if (sheet) throw new Error(`${sheet} is a spreadsheet in its own form, which is not read here`);
  found.forEach(({ name, kind, blob }, place) => {
    if (kinds.indexOf(kind) < place) throw new Error(`${name}: another file is ${KINDS[kind]} already`);
    if (!blob) throw new Error(`${kind} file is too long: it has more than ${MOST_BYTES.toLocaleString('en')} bytes`);
  });
  if (!hasNetwork && !isOfNames(found)) throw new Error('a file of activities, or of commands, is wanted');
  return found;
};

const bytesOf = async ({ name, blob }) => {
  try {
    return new Uint8Array(await blob.arrayBuffer());
  } catch (fault) {
    throw new Error(`${name} cannot be read: ${fault.message}`);
  }
};

// Files that only the program reads stay bytes, which become text part by part for help: each other form takes as much memory
// again. A byte order mark stays, which the program reads too.
const readBytes = bytes => ({ content: bytes, texts: () => textsIn(sourceOf(bytes), 'utf-8'), has: letter => bytes.includes(letter.charCodeAt(0)) });
const readText = text => ({ content: text, texts: () => [text], has: letter => text.includes(letter) });

const convertShort = (file, bytes) => {
  const texts = [];
  file.notes = convert(file.kind, sourceOf(bytes), text => texts.push(text));
  file.read = readText(texts.join(''));
};

// The same for long files; false if it was stopped.
const convertByWorker = async found => {
  hide();
  const made = await convertLong(found.map(({ kind, blob }) => ({ kind, blob })));
  if (!made) return false;
  for (const [place, { blob, notes }] of made.entries()) {
    const file = found[place], bytes = new Uint8Array(await blob.arrayBuffer());
    Object.assign(file, { notes, read: file.kind === 'activities' ? readBytes(bytes) : readText(new TextDecoder('utf-8', { ignoreBOM: true }).decode(bytes)) });
  }
  return true;
};

// Sets for each file its converted text, and the conversions that were made.
const convertAll = async found => {
  if (found.reduce((sum, { blob }) => sum + blob.size, 0) > MOST_AT_ONCE) return convertByWorker(found);
  for (const file of found) convertShort(file, await bytesOf(file));
  return true;
};

const openConverted = (found, title, period) => {
  const texts = Object.fromEntries(found.map(({ kind, read }) => [kind, read.content]));
  return isOfNames(found) ? addLabels(texts.labels) : openTexts(texts, title, period);
};

// Opens the listed files, if nothing else was done while they were read.
const openListed = async () => {
  const title = files.length ? folderOf(files[0].name) : '', { opened, place } = session, period = Number(find('opening-period').value);
  let found = [];
  try {
    found = await wanted();
    if (!await convertAll(found)) return;
    if (session.opened !== opened || session.place !== place) return show();
    const opening = openConverted(found, title, period);
    hide();
    if (await opening !== false) say(openedWord(found));
  } catch (fault) {
    tellOpening(fault.message, helpFor(fault.message, kind => (found.find(file => file.kind === kind) || {}).read));
    show();
  } finally {
    for (const file of found) delete file.read;
  }
};

const baseOf = ({ name }) => name.split('/').pop();

// The folder of files becomes the title.
const openedWord = found => [
  `opened: ${found.map(baseOf).join(', ')}`,
  ...found.filter(file => file.notes.length).map(file => `${baseOf(file)}: ${file.notes.join(', ')}`),
].join(' — ');

const folderOf = name => name.includes('/') ? name.split('/').slice(-2)[0] : name;

const dropped = event => {
  event.preventDefault();
  document.body.classList.remove('over');
  if ([...event.dataTransfer.items].some(item => item.kind === 'file')) offerFiles(droppedFiles(event.dataTransfer.items));
};

export const showOpening = () => {
  tellOpening('');
  show();
};

// An empty network, which begins with a line.
const beginNew = () => {
  if (!find('opening-period').reportValidity()) return;
  try {
    openTexts({}, 'a new network', Number(find('opening-period').value));
    hide();
    say('');
    showLining();
  } catch (fault) {
    tellOpening(fault.message);
  }
};

export const startOpening = () => {
  find('open').addEventListener('click', showOpening);
  find('new').addEventListener('click', () => {
    showOpening();
    find('begin-new').focus();
  });
  find('begin-new').addEventListener('click', beginNew);
  for (const name of ['choose-files', 'choose-folder']) {
    find(name).addEventListener('change', event => {
      const given = [...event.target.files].map(file => new File([file], file.webkitRelativePath || file.name));
      event.target.value = '';
      if (given.length) offerFiles(given, { isAsked: true });
    });
  }
  find('opening-form').addEventListener('submit', event => {
    event.preventDefault();
    openListed();
  });
  find('opening-close').addEventListener('click', hide);
  find('stories').replaceChildren(...stories.map(story => element('li', {},
    element('button', { type: 'button', class: 'link', onclick: () => openStory(story) }, story.title), ` — ${story.told}`)));
  window.addEventListener('dragover', event => {
    event.preventDefault();
    document.body.classList.add('over');
  });
  window.addEventListener('dragleave', event => event.relatedTarget === null && document.body.classList.remove('over'));
  window.addEventListener('drop', dropped);
};

export const openStory = story => {
  openTexts(story.texts, story.title);
  hide();
  say(story.told);
};
