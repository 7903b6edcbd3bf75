// With little room the chosen event is one line below the others, which unfolds: by its button, and when it is chosen.

import { find } from '../base/elements.js';

// The others have less room then: the row that has the keys, or is chosen when that is drawn, stays in sight.
const keepInSight = () => {
  const rows = find('rows'), { activeElement } = document, within = rows.contains(activeElement) ? activeElement : rows.querySelector('.chosen');
  if (within && find('unfold').getClientRects().length) within.closest('.row').scrollIntoView({ block: 'nearest' });
};

const show = isOn => {
  if (isOn && !document.body.classList.contains('unfolded')) requestAnimationFrame(() => requestAnimationFrame(keepInSight));
  document.body.classList.toggle('unfolded', isOn);
  find('unfold').setAttribute('aria-expanded', isOn);
  if (!isOn) find('chosen').scrollTop = 0;
};

export const unfold = () => show(true);

export const startUnfolding = () => find('unfold').addEventListener('click', () => show(!document.body.classList.contains('unfolded')));
