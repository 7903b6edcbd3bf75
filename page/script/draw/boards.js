// The view of a station's board: of one that is typed, or whose name is clicked twice anywhere, or that of the chosen event.

import { boardOf } from './board.js';
import { display } from '../session/display.js';
import { find } from '../base/elements.js';
import { isField } from '../forms/fields.js';
import { fillFinder } from './finder.js';
import { matches } from './finding.js';
import { labelOf } from '../session/names.js';
import { isTab, showTab } from '../session/tabs.js';

// The station shown, and the one whose name was clicked last.
let chosen = '', clicked = '';

const showBoard = station => {
  if (!station) return;
  chosen = station;
  showTab('station');
};

const showBoardHere = () => showBoard(labelOf(display.chosen).station);

// The station with this name; '' if there is none.
const namedBy = node => {
  const named = node.closest('[data-station]'), row = node.closest('[data-row] > .name');
  return named ? named.dataset.station : row ? labelOf(Number(row.parentElement.dataset.row)).station : '';
};

export const boardsPanel = {
  begin: () => { chosen = ''; },
  update: view => {
    const { station } = labelOf(display.chosen), named = chosen || station;
    find('to-board').hidden = !station;
    if (isTab('station')) find('board').replaceChildren(named ? boardOf(view, named) : 'A file of labels names the stations; with it their boards are here.');
  },
};

export const startBoards = () => {
  fillFinder(find('board-station'), { label: 'Station', hint: 'a name', search: text => matches(text, ['station']), take: ({ value }) => showBoard(value) });
  find('to-board').addEventListener('click', showBoardHere);
  // A first click may move the drawing.
  document.addEventListener('click', ({ detail, target }) => { if (detail < 2) clicked = namedBy(target); }, true);
  document.addEventListener('dblclick', () => showBoard(clicked));
  window.addEventListener('keydown', ({ key, ctrlKey, metaKey, altKey, target }) => {
    if (key === 'b' && !(ctrlKey || metaKey || altKey || isField(target) || document.querySelector('dialog[open]'))) showBoardHere();
  });
};
