// A layer of a drawing, which is drawn again only if one of its values has changed.

import { drawing, renew } from '../base/elements.js';

export const isSame = (one, other) => one.length === other.length && one.every((each, place) => each === other[place]);

// An empty layer; `of` has the drawn values.
export const makeLayer = () => ({ node: drawing('g'), of: null });

// Draws a layer of some values, if one of them is new.
export const drawLayer = (layer, of, make) => {
  if (layer.of && isSame(layer.of, of)) return;
  renew(layer.node, make());
  layer.of = of;
};
