// The netgraph fills its view if its names can be read then; if it is larger or zoomed, it is scrolled.

import { find } from '../base/elements.js';
import { spaceOf } from '../session/sizes.js';

const LEAST = 0.56, MOST = 12;
let zoom = 1;

// The scale at which all of it is visible, and the one without zoom.
const scalesOf = page => {
  const { width, height } = page.viewBox.baseVal, room = spaceOf('netgraph'), whole = Math.min((room.width - 2) / width, room.height / height);
  return { whole, plain: Math.max(LEAST, whole) };
};

// Sets the size of all drawings of the netgraph.
export const fitMap = () => {
  const sheets = [...find('netgraph').children], [page] = sheets;
  if (!page) return;
  const { width, height } = page.viewBox.baseVal, scale = zoom * scalesOf(page).plain, room = spaceOf('netgraph');
  for (const { style } of sheets) {
    [style.width, style.height] = [width, height].map(each => `${(scale * each).toFixed(1)}px`);
    // A zoomed netgraph has room around it, so that each place of it can stay where it is.
    style.margin = zoom > 1 ? `${room.height / 2}px ${room.width / 2}px` : '';
  }
};

export const mapZoom = () => zoom;

export const showWholeMap = () => {
  const [page] = find('netgraph').children, scales = page && scalesOf(page);
  zoom = page ? scales.whole / scales.plain : 1;
  fitMap();
};

// Zooms it by a factor about a place of the screen; false if it is already as large or as small as possible.
export const zoomMap = (factor, x, y) => {
  const holder = find('netgraph'), [page] = holder.children;
  if (!page) return false;
  const { whole, plain } = scalesOf(page), before = page.getBoundingClientRect(), last = zoom;
  zoom = Math.min(MOST, Math.max(Math.min(1, whole / plain), zoom * factor));
  if (zoom === last) return false;
  fitMap();
  const after = page.getBoundingClientRect(), fractions = [(x - before.left) / before.width, (y - before.top) / before.height];
  holder.scrollBy(after.left + fractions[0] * after.width - x, after.top + fractions[1] * after.height - y);
  return true;
};
