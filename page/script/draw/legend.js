// The legend at the top: what each mark means, drawn as it looks in the picture.

import { drawing, element, find } from '../base/elements.js';

const path = (d, look) => drawing('path', { d, ...look });
const ground = path('M0 2H24V12H0Z', { fill: 'var(--track)' });
/** @type {[string, any[]][]} */
const MARKS = [
  ['possible', [ground, path('M5 2H20V12H5Z', { fill: 'var(--domain)' })]],
  ['held', [ground, path('M6 2H17V12H6Z', { fill: 'none', stroke: 'var(--ink)', 'stroke-width': 2 })]],
  ['time', [ground, path('M12 2L17 7L12 12L7 7Z', { fill: 'var(--time)' })]],
  ['slack', [path('M2 2H22V12H2Z', { fill: 'var(--bar)' }),
    path('M4 11L10 3M10 11L16 3M16 11L22 3', { stroke: 'var(--blue)', 'stroke-width': 2 })]],
  ['headway', [path('M2 13L10 1H20L12 13Z', { fill: 'var(--line-0)', opacity: 0.3 }),
    path('M2 13L10 1', { stroke: 'var(--line-0)', 'stroke-width': 2 })]],
  ['not met', [path('M8 3L16 11M16 3L8 11', { stroke: 'var(--alarm)', 'stroke-width': 2.5 })]],
];

export const startLegend = () => find('legend').replaceChildren(...MARKS.map(([name, marks]) => element('li', {},
  drawing('svg', { viewBox: '0 0 24 14', 'aria-hidden': 'true' }, ...marks.map(mark => mark.cloneNode())), name)));
