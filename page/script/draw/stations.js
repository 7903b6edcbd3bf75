// The choice of the corridor's stations: by name, by a click on the netgraph, or all of a line.

import { chooseCorridor, corridor, switchStation } from './corridor.js';
import { display } from '../session/display.js';
import { element, elided, find, findAll, setText } from '../base/elements.js';
import { fillFinder } from './finder.js';
import { matches } from './finding.js';
import { isTab, showTab } from '../session/tabs.js';

const MOST_CHIPS = 40;

const button = (name, act) => element('button', { type: 'button', onclick: act }, name);

const lineOf = view => view.lines.find(line => line.name === display.chosenLine) || view.lines[0];

// The elements that stay in place, so that they keep the focus.
const clear = () => chooseCorridor([]), chips = element('ol', { 'aria-label': 'stations chosen' }), summary = element('span');
const all = button('All of a line', () => chooseCorridor([...lineOf(display.view).stations]));
const turn = button('Turn round', () => chooseCorridor([...corridor.chosen].reverse()));
const none = button('Clear', clear), toMap = button('Netgraph', () => showTab('netgraph'));
const ofMap = [button('Corridor', () => showTab('corridor')), button('Clear', clear)];
let listed = null, marked = null, map = null;

export const startStations = () => {
  const finder = element('div', { class: 'finder' }), take = ({ value }) => corridor.chosen.includes(value) || switchStation(value);
  find('corridor-stations').replaceChildren(finder, chips, all, turn, none, toMap);
  fillFinder(finder, { label: 'Station', hint: 'a name', search: text => matches(text, ['station']), take });
  find('corridor-told').replaceChildren(...ofMap, summary);
  const panel = find('netgraph');
  panel.addEventListener('click', clicked);
  panel.addEventListener('keydown', event => {
    if (['Enter', ' '].includes(event.key) && clicked(event)) event.preventDefault();
  });
};

const clicked = event => {
  const station = event.target.closest('[data-station]');
  if (station) switchStation(station.dataset.station);
  return Boolean(station);
};

const chip = station => element('li', {}, element('button', {
  type: 'button', 'aria-label': `take ${station} out of the corridor`, onclick: () => switchStation(station),
}, `${station} ✕`));

const updateChips = view => {
  const { chosen } = corridor, line = lineOf(view);
  all.hidden = !line || line.stations.length < 2;
  if (line) setText(all, `All of ${line.name}`);
  turn.hidden = chosen.length < 2;
  none.hidden = !chosen.length;
  if (listed === chosen) return;
  listed = chosen;
  chips.replaceChildren(...chosen.slice(0, MOST_CHIPS).map(chip), elided(chosen.length, MOST_CHIPS, 'stations'));
};

// The stations of the corridor on the netgraph, and above it.
const updateMap = view => {
  const { stations } = corridor, known = new Set(stations), drawn = document.querySelector('#netgraph > svg');
  find('corridor-told').hidden = !isTab('netgraph') || !view.lines.length;
  if (!isTab('netgraph') || (marked === stations && map === drawn)) return;
  [marked, map] = [stations, drawn];
  for (const each of findAll('#netgraph [data-station]')) {
    each.classList.toggle('on', known.has(each.dataset.station));
    each.setAttribute('aria-pressed', known.has(each.dataset.station));
  }
  for (const each of ofMap) each.disabled = !known.size;
  setText(summary, stations.join(' – ') || 'A click on a station takes it in.');
};

export const stationsPanel = {
  update: view => {
    if (isTab('corridor')) updateChips(view);
    updateMap(view);
  },
};
