// The state shown, and what is chosen in it. Only the functions here change it; they draw nothing: session.js calls them.

import { noLabels } from '../base/labels.js';

let view = null, labels = noLabels(), places = new Map(), chosen = null, chosenLine = null;

// The same, read-only: the last view, null if there was none; the names of the open network and the places of its stations; an
// event, and a line by its name.
export const display = Object.freeze({
  get view() { return view; },
  get labels() { return labels; },
  get places() { return places; },
  get chosen() { return chosen; },
  get chosenLine() { return chosenLine; },
});

// Another network is open, of which nothing is shown or chosen yet.
export const beginDisplay = (its, placesOfIt) => {
  [view, labels, places, chosen, chosenLine] = [null, its, placesOfIt, null, null];
};

export const setView = made => { view = made; };

export const setLabels = made => { labels = made; };

export const setChosen = event => { chosen = event; };

export const setChosenLine = name => { chosenLine = name; };

// Does something as if another view were shown, with other names or its own.
export const within = (other, act, names = other.labels) => {
  const before = { view, labels };
  [view, labels] = [other, names];
  try {
    return act();
  } finally {
    ({ view, labels } = before);
  }
};
