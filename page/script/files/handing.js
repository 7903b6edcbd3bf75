// Hands a network over: the name under which it is saved, and a link that contains it.

import { find, setText } from '../base/elements.js';
import { filesToSave, folderFiles } from './filing.js';
import { fragmentOf } from './linking.js';
import { nameNetwork, session } from '../session/session.js';

const nameIt = () => {
  const title = find('saving-name').value.trim();
  if (title !== session.opened.title) nameNetwork(title);
};

const tell = (text, isAlarm = false) => {
  setText(find('link-told'), text);
  find('link-told').classList.toggle('alarm', isAlarm);
};

// Whether the browser copied a text.
const isCopied = async field => {
  field.select();
  try {
    await navigator.clipboard.writeText(field.value);
    return true;
  } catch (fault) {
    return document.execCommand('copy');
  }
};

const copyLink = async () => {
  const field = find('link-text');
  try {
    nameIt();
    field.value = location.href.split('#')[0] + await fragmentOf(folderFiles(filesToSave()));
  } catch (fault) {
    return tell(fault.message, true);
  }
  field.hidden = false;
  const where = 'Whoever has the page elsewhere pastes it into its dialog Open.';
  const word = await isCopied(field) ? 'Copied' : 'Copy it from here';
  return tell(`${word}: a link of ${field.value.length.toLocaleString('en')} letters with the network in it. ${where}`);
};

// Shows the name, and no earlier link.
export const showHanding = () => {
  find('saving-name').value = session.opened.title;
  Object.assign(find('link-text'), { value: '', hidden: true });
  tell('');
};

export const startHanding = () => {
  const name = find('saving-name');
  name.addEventListener('change', nameIt);
  // Escape restores the name.
  find('saving').addEventListener('cancel', () => { name.value = session.opened.title; });
  name.addEventListener('keydown', event => {
    if (event.key !== 'Enter') return;
    nameIt();
    find('save-all').click();
  });
  find('copy-link').addEventListener('click', copyLink);
};
