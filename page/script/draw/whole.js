// Shows a picture on the whole screen, with cost and violations above it: by its box, or by F, until F or Escape.

import { find } from '../base/elements.js';
import { isField } from '../forms/fields.js';
import { redraw } from '../session/session.js';
import { forgetRooms } from '../session/sizes.js';

const show = isWhole => {
  find('large').checked = isWhole;
  document.body.classList.toggle('alone', isWhole);
  forgetRooms();
  redraw();
};

export const startWhole = () => {
  find('large').addEventListener('change', event => show(event.target.checked));
  window.addEventListener('keydown', event => {
    const { key, target } = event, isOn = find('large').checked;
    if (event.ctrlKey || event.metaKey || event.altKey || event.defaultPrevented || document.querySelector('dialog[open]')) return;
    if ((key === 'f' && !isField(target)) || (key === 'Escape' && isOn)) show(!isOn);
  });
};
