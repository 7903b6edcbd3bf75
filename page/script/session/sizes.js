// The sizes of the pictures on the screen: they fill their views.

import { display } from './display.js';
import { find } from '../base/elements.js';
import { minutesOfDiagram } from './extent.js';
import { redraw } from './session.js';

const PICTURES = ['diagram', 'corridor', 'netgraph'];
// The measured sizes, until they may change: measuring makes a browser lay out the page.
const rooms = new Map(), sizes = new Map();

// A picture slightly higher than its view by rounding would be scrolled.
const measured = ({ clientWidth, clientHeight }) => ({ width: clientWidth, height: Math.max(0, clientHeight - 2) });

export const spaceOf = name => {
  if (!rooms.has(name)) rooms.set(name, measured(find(name)));
  return rooms.get(name);
};

// The size of a diagram with the minutes that it shows, the same value if unchanged.
export const sizeNow = name => {
  const { width, height } = spaceOf(name), minutes = minutesOfDiagram(), known = JSON.stringify([width, height, minutes]);
  if (!sizes.has(name) || sizes.get(name).known !== known) sizes.set(name, { known, size: { width: width || 880, height, minutes } });
  return sizes.get(name).size;
};

// Measures again when something is drawn next.
export const forgetRooms = () => rooms.clear();

export const startSizes = () => {
  const observer = new ResizeObserver(changes => {
    const isOther = ({ target }) => target.clientWidth && JSON.stringify(spaceOf(target.id)) !== JSON.stringify(measured(target));
    if (!display.view || !changes.some(isOther)) return;
    forgetRooms();
    redraw();
  });
  for (const name of PICTURES) observer.observe(find(name));
};
