// Drafts: unsaved work, kept in the browser if the planner agrees, and offered when the page is opened the next time. Each
// page writes its own, which it holds as long as it is open; of a draft that another page holds it opens a copy.

import { display } from '../session/display.js';
import { beginsEdit } from '../base/edits.js';
import { element, find, say, sayMore, setText } from '../base/elements.js';
import { filesOf, isSaved } from './filing.js';
import { namesHeld, takeHold, untilFree } from './holding.js';
import { keepingKeys } from '../base/keeping.js';
import { labelsText, readLabels } from '../base/labels.js';
import { linesOfStep, session } from '../session/session.js';
import { openTexts } from './texts.js';

const CHOICE = 'pespbench-keep', KEY = 'pespbench-draft-', DELAY = 300, MOST_STEPS = 100000;
// The parts of a draft's network; it has no file of commands, which could search.
const FILES = ['activities', 'fixed', 'windows', 'events', 'times', 'period', 'labels', 'places'];
// A page that was closed releases its draft slightly later.
const PATIENCE = 250;
const LINE = /^[a-z]+ [^\r\n]{1,4000}$/;
let own = '', letOwnGo = null, waiting = 0, fault = '';

// The values that the browser keeps by a key; a browser may refuse that completely, or lack the room.
const store = {
  read: key => localStorage.getItem(key),
  write: (key, text) => localStorage.setItem(key, text),
  drop: key => localStorage.removeItem(key),
  keys: () => Object.keys(localStorage).filter(key => key.startsWith(KEY)).sort(),
};

const isKept = () => {
  try {
    return store.read(CHOICE) === 'yes';
  } catch (refusal) {
    return false;
  }
};

const draftNow = () => {
  const { opened, steps, place } = session;
  const files = filesOf(opened.network, opened.times, opened.labels), labels = labelsText(display.labels);
  const done = steps.slice(0, place).filter(({ edits }) => edits.length);
  const kept = { steps: done.map(linesOfStep), titles: done.map(step => step.title) };
  return JSON.stringify({ title: opened.title, at: Date.now(), files, labels, ...kept });
};

// Writes the draft, or removes it if all is saved. A refusal is reported once.
const keep = () => {
  clearTimeout(waiting);
  if (!isKept() || !session.opened) return;
  const before = fault;
  try {
    fault = '';
    if (isSaved()) store.drop(own);
    else store.write(own, draftNow());
  } catch (refusal) {
    fault = 'This state has no draft: the browser has no room for it.';
    if (!before) sayMore(fault);
  }
  tell();
};

// Not while something is dragged, since a large network takes time.
const keepSoon = () => {
  clearTimeout(waiting);
  waiting = setTimeout(keep, DELAY);
};

export const draftsPanel = { update: keepSoon };

// A draft as it was written; null if a key has something else.
const draftOf = key => {
  try {
    const { title, at, files, labels, steps, titles = [] } = JSON.parse(store.read(key));
    const isWhole = Object.keys(files).every(name => FILES.includes(name)) && [title, labels, ...titles, ...Object.values(files)].every(text => typeof text === 'string') && new Date(at).getTime() >= 0
      && steps.length <= MOST_STEPS && steps.every(lines => lines.length && lines.every(line => LINE.test(line) && beginsEdit(line)));
    return isWhole ? { title, at, files, labels, steps: steps.map((lines, place) => ({ lines, title: titles[place] || '' })) } : null;
  } catch (damage) {
    return null;
  }
};

const wordOf = ({ title, at, steps }, isHeld) => {
  const when = new Date(at).toLocaleString('en-GB', { dateStyle: 'long', timeStyle: 'short' });
  const sentence = `A draft of “${title || 'a network'}” of ${when}, ${steps.length === 1 ? '1 step' : `${steps.length} steps`}, is`;
  return isHeld ? `${sentence} open in another page.` : `${sentence} kept in this browser.`;
};

// From now on the draft of this page is another one, which it holds.
const goOnWith = (key, letGo) => {
  if (letOwnGo) letOwnGo();
  [own, letOwnGo] = [key, letGo];
};

// Shows a draft, whose steps are done with its own network; if one is refused nothing has changed. Raises Error.
const show = draft => {
  if (!draft) throw new Error('it cannot be read');
  // Names alone are a step without lines.
  const steps = draft.steps.length ? draft.steps : [{ lines: [], title: '' }];
  openTexts(draft.files, draft.title, undefined, { steps, labels: readLabels(draft.labels) });
};

// Replaces the open network by a draft, and continues it as the draft of this page, or as a copy if another page holds it.
const openDraft = async (key, button) => {
  const letGo = await takeHold(key), draft = draftOf(key);
  if (!isSaved() && !button.dataset.asked) {
    if (letGo) letGo();
    button.dataset.asked = 'yes';
    setText(button, 'Open it, and lose what is not saved');
    return;
  }
  try {
    show(draft);
    if (letGo) goOnWith(key, letGo);
    say(`the draft of “${draft.title}” is open${letGo ? '' : ' as one of its own'}, and not saved yet`);
  } catch (refusal) {
    if (letGo) letGo();
    say(`The draft cannot be opened: ${refusal.message}.`, true);
  }
  await list();
};

const dropDraft = async key => {
  const isHeld = (await namesHeld()).has(key);
  if (!isHeld) store.drop(key);
  await list();
  say(isHeld ? 'The draft stays: another page has it open.' : 'the draft is dropped', isHeld);
};

const row = (key, isHeld) => {
  const draft = draftOf(key), drop = isHeld ? null : element('button', { onclick: () => dropDraft(key) }, 'Drop it');
  if (!draft) return element('p', {}, 'A draft in this browser cannot be read.', drop);
  const open = element('button', { class: 'main', onclick: () => openDraft(key, open) }, isHeld ? 'Open a copy' : 'Open it');
  return element('p', {}, wordOf(draft, isHeld), open, drop);
};

// The drafts that other pages hold now, each of which is listed again once it is free.
const awaited = new Set();
const awaitFree = key => {
  if (awaited.has(key)) return;
  awaited.add(key);
  untilFree(key).then(() => {
    awaited.delete(key);
    list();
  });
};

// Lists the drafts of other pages.
const list = async () => {
  const held = await namesHeld(), keys = store.keys().filter(key => key !== own);
  keepingKeys(() => {
    find('drafts').replaceChildren(...keys.map(key => row(key, held.has(key))));
    find('drafts').hidden = !keys.length;
  });
  keys.filter(key => held.has(key)).forEach(awaitFree);
};

const choose = box => {
  try {
    if (box.checked) store.write(CHOICE, 'yes');
    else [CHOICE, own].forEach(store.drop);
    keep();
  } catch (refusal) {
    box.checked = false;
    fault = 'This browser does not let the page keep anything.';
  }
  tell();
};

const tell = () => setText(find('draft-told'), fault || (isKept()
  ? 'It stays on this machine until it is saved or dropped, and is offered when the page is opened again.' : ''));

const isSomeHeld = async () => {
  const held = await namesHeld();
  return store.keys().some(key => held.has(key));
};

export const startDrafts = async () => {
  const box = find('keep-draft');
  own = `${KEY}${Date.now()}-${Math.random().toString(36).slice(2, 8)}`;
  box.checked = isKept();
  box.addEventListener('change', () => choose(box));
  tell();
  window.addEventListener('pagehide', keep);
  document.addEventListener('visibilitychange', keep);
  find('saving').addEventListener('close', keep);
  letOwnGo = await takeHold(own);
  try {
    if (await isSomeHeld()) await new Promise(done => { setTimeout(done, PATIENCE); });
    await list();
  } catch (refusal) {
    // If nothing can be kept, nothing was ever kept.
  }
};
