// A link that has the network in its fragment, which no browser sends: the files of a saved folder, packed, after their checksum.

import { checksum, inflated } from './archive.js';
import { find, say } from '../base/elements.js';
import { offerFiles, tellOpening } from './opening.js';
import { session } from '../session/session.js';

const MARK = '#network=';
// The most letters of a fragment, and the most bytes that it unpacks to.
const MOST_LETTERS = 30000, MOST_LINKED = 4000000;
const NAMED = /^[^\n/]{1,100}\/(activities|fixed|windows|events|times|period|labels|places)$/;

const wordOf = sum => sum.toString(16).padStart(8, '0');

const lettersOf = bytes => btoa(Array.from(bytes, byte => String.fromCharCode(byte)).join(''))
  .replace(/\+/g, '-').replace(/\//g, '_').replace(/=/g, '');

const bytesOf = letters => Uint8Array.from(atob(letters.replace(/-/g, '+').replace(/_/g, '/')), letter => letter.charCodeAt(0));

const packed = async bytes => {
  const stream = new Blob([bytes]).stream().pipeThrough(new CompressionStream('deflate-raw'));
  return new Uint8Array(await new Response(stream).arrayBuffer());
};

const counted = number => number.toLocaleString('en');

// The fragment of some files by their names. Raises Error with the text to show, if they do not fit into a link.
export const fragmentOf = async files => {
  if (!window.CompressionStream) throw new Error('This browser cannot pack a link.');
  const bytes = new TextEncoder().encode(JSON.stringify(files));
  const fragment = bytes.length > MOST_LINKED ? '' : `${MARK}${wordOf(checksum(bytes))}.${lettersOf(await packed(bytes))}`;
  if (fragment && fragment.length <= MOST_LETTERS) return fragment;
  const size = fragment ? `${counted(fragment.length)} letters` : `more than ${counted(MOST_LINKED)} bytes`;
  throw new Error(`The network is too large for a link: ${size}, of ${counted(MOST_LETTERS)} letters. The folder has it whole.`);
};

const DAMAGED = 'it is damaged, or not whole';

// The contents of packed letters. Raises Error.
const unpacked = async (check, letters) => {
  let found = null;
  try {
    found = await inflated(new Blob([bytesOf(letters)]), MOST_LINKED);
  } catch (fault) {
    throw new Error(DAMAGED);
  }
  if (!found) throw new Error(`it unpacks to more than ${counted(MOST_LINKED)} bytes`);
  if (wordOf(found.sum) !== check) throw new Error(DAMAGED);
  return found.blob;
};

// The files of a fragment. Raises Error with its fault.
const filesOfFragment = async fragment => {
  if (fragment.length > MOST_LETTERS) throw new Error(`it has ${counted(fragment.length)} letters, and may have ${counted(MOST_LETTERS)}`);
  const [, check, letters] = /^#network=([0-9a-f]{8})\.([\w-]+)$/.exec(fragment) || [];
  if (!check) throw new Error(DAMAGED);
  const files = filesIn(await (await unpacked(check, letters)).text());
  if (!files) throw new Error('it has no network of this page');
  return files;
};

// The files of a text; null if it is not one of this page's.
const filesIn = text => {
  try {
    const files = Object.entries(JSON.parse(text));
    return files.length && files.every(([name, given]) => NAMED.test(name) && typeof given === 'string') ? files : null;
  } catch (fault) {
    return null;
  }
};

// The state that the link in the address has shown; the address loses it when something else is shown.
let linked = null;

const forget = () => {
  linked = null;
  history.replaceState(null, '', location.href.split('#')[0]);
};

export const linkingPanel = { update: () => linked && linked !== session.opened && forget() };

// Opens the contents of a link like files: at once if nothing is lost; for names alone it asks, since they change the open
// network. A link that cannot be opened is refused with a text.
const openLink = async link => {
  try {
    const files = await filesOfFragment(link.slice(link.indexOf(MARK)));
    await offerFiles(files.map(([name, text]) => new File([text], name)), { isOfLink: true });
    return true;
  } catch (fault) {
    say(`The link cannot be opened: ${fault.message}.`, true);
    return false;
  }
};

const openAddress = async () => {
  if (!location.hash.startsWith(MARK)) return;
  linked = null;
  const before = session.opened, isOpened = await openLink(location.hash);
  if (isOpened && before !== session.opened) linked = session.opened;
  else forget();
};

// A link that is pasted into the field of the dialog is opened, even if another copy of the page made it.
const pasted = async value => {
  if (!value.includes(MARK)) return tellOpening('This is no link of this page: it has no #network= in it.');
  const isOpened = await openLink(value.replace(/\s+/g, ''));
  if (!isOpened) return tellOpening(find('said').textContent);
  find('opening-link').value = '';
  return null;
};

export const startLinks = () => {
  window.addEventListener('hashchange', openAddress);
  const field = find('opening-link');
  field.addEventListener('input', () => field.value.trim() && pasted(field.value));
  return openAddress();
};
