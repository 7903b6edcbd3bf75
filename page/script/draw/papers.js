// The choice of what is printed: lines, by default all, and boards of stations.

import { display } from '../session/display.js';
import { element, find } from '../base/elements.js';
import { labelOf } from '../session/names.js';

const ALL = { lines: null, boards: new Set() };
// With more lines what is printed is asked first.
const FEW = 20;
let kept = ALL;

export const linesOnPaper = ({ lines }) => lines.filter(({ name }) => !kept.lines || kept.lines.has(name));

export const boardsOnPaper = () => [...kept.boards];

const choice = (name, title, names, chosen) => element('label', {}, title,
  element('select', { multiple: true, id: `${name}-on-paper` }, ...names.map(each => element('option', { selected: chosen(each) }, each))));

const chosenIn = name => new Set([...find(`${name}-on-paper`).selectedOptions].map(({ value }) => value));

const show = () => {
  const { lines, network } = display.view, stations = [...new Set(network.events.map(event => labelOf(event).station))].filter(Boolean).sort();
  find('paper-picks').replaceChildren(choice('lines', 'Lines', lines.map(({ name }) => name), name => !kept.lines || kept.lines.has(name)),
    choice('boards', 'Boards of stations', stations, name => kept.boards.has(name)));
  find('papers').showModal();
};

export const papersPanel = {
  begin: () => { kept = ALL; },
  update: () => {},
};

export const startPapers = () => {
  const dialog = find('papers');
  find('choose-paper').addEventListener('click', show);
  find('print').addEventListener('click', () => kept === ALL && display.view.lines.length > FEW ? show() : window.print());
  find('papers-close').addEventListener('click', () => dialog.close());
  dialog.addEventListener('close', () => {
    const lines = chosenIn('lines');
    kept = { lines: lines.size < display.view.lines.length ? lines : null, boards: chosenIn('boards') };
  });
  find('papers-print').addEventListener('click', () => {
    dialog.close();
    setTimeout(() => window.print());
  });
};
