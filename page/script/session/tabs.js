// One of the views on the right is shown at a time; each is drawn when it is.

import { find } from '../base/elements.js';
import { redraw } from './session.js';
import { forgetRooms } from './sizes.js';

const TABS = ['diagram', 'netgraph', 'corridor', 'station', 'tables', 'compare', 'violated', 'lines', 'why', 'gains'];
let shownTab = 'diagram';

export const isTab = name => shownTab === name;

export const tabNow = () => shownTab;

export const showTab = name => {
  shownTab = name;
  for (const each of TABS) {
    const tab = find(`tab-${each}`), isShown = each === name;
    tab.setAttribute('aria-selected', isShown);
    tab.tabIndex = isShown ? 0 : -1;
    find(`view-${each}`).hidden = !isShown;
  }
  forgetRooms();
  redraw();
};

export const startTabs = () => {
  TABS.forEach((name, place) => {
    const tab = find(`tab-${name}`);
    tab.addEventListener('click', () => showTab(name));
    tab.addEventListener('keydown', event => {
      const step = { ArrowLeft: -1, ArrowRight: 1 }[event.key];
      if (!step) return;
      const next = TABS[(place + step + TABS.length) % TABS.length];
      showTab(next);
      find(`tab-${next}`).focus();
    });
  });
  find('figure-violations').addEventListener('click', () => showTab('violated'));
};
