// A field that lists matches while one types: arrow keys go through the list, Enter or a click chooses one, Escape closes it.

import { element } from '../base/elements.js';

const fields = [];

// Fills a holder with a field; `search` returns the matches of a text, and how many more there are, and `take` receives the
// chosen one. The field is returned.
export const fillFinder = (holder, { label, hint, search, take }) => {
  const name = `found-${fields.length + 1}`, list = element('ul', { role: 'listbox', id: name, 'aria-label': 'found', hidden: true });
  const input = element('input', { role: 'combobox', 'aria-expanded': 'false', 'aria-controls': name, 'aria-autocomplete': 'list',
    autocomplete: 'off', spellcheck: 'false', placeholder: hint, id: `${name}-field` });
  const finder = { input, list, name, take, search, found: [], at: 0 };
  input.addEventListener('input', () => look(finder));
  input.addEventListener('blur', () => close(finder));
  input.addEventListener('keydown', event => typed(finder, event));
  // The field keeps the focus while a pointer is on the list.
  list.addEventListener('mousedown', event => event.preventDefault());
  list.addEventListener('click', event => {
    const option = event.target.closest('[role=option]');
    if (option) choose(finder, Number(option.dataset.at));
  });
  holder.replaceChildren(element('label', { for: input.id }, label), input, list);
  fields.push(finder);
  return input;
};

// The typed text belongs to a network that is no longer open.
export const finderPanel = {
  begin: () => fields.forEach(finder => {
    finder.input.value = '';
    look(finder);
  }),
  update: () => {},
};

const look = finder => {
  const { found, more } = finder.search(finder.input.value);
  Object.assign(finder, { found, at: 0 });
  const options = found.map((each, at) => element('li', { role: 'option', id: `${finder.name}-${at}`, 'data-at': at }, each.name, ' ',
    element('small', {}, each.note)));
  const note = more ? `and ${more.toLocaleString('en')} more: type more` : found.length ? '' : 'nothing is found';
  finder.list.replaceChildren(...options, ...(note ? [element('li', { class: 'quiet', role: 'presentation' }, note)] : []));
  open(finder, finder.input.value.trim() !== '');
  mark(finder);
};

const open = ({ input, list }, isOpen) => {
  list.hidden = !isOpen;
  input.setAttribute('aria-expanded', isOpen);
};

const close = finder => {
  open(finder, false);
  finder.input.removeAttribute('aria-activedescendant');
};

const mark = ({ input, list, name, found, at }) => {
  if (!found.length) return input.removeAttribute('aria-activedescendant');
  input.setAttribute('aria-activedescendant', `${name}-${at}`);
  list.querySelectorAll('[role=option]').forEach((option, place) => option.setAttribute('aria-selected', place === at));
  list.children[at].scrollIntoView({ block: 'nearest' });
};

const choose = (finder, at) => {
  const chosen = finder.found[at];
  if (!chosen) return;
  finder.input.value = '';
  finder.found = [];
  close(finder);
  finder.take(chosen);
};

const STEPS = { ArrowDown: 1, ArrowUp: -1 };

const typed = (finder, event) => {
  const { length } = finder.found, step = STEPS[event.key];
  if (step && length) {
    finder.at = (finder.at + step + length) % length;
    mark(finder);
  } else if (event.key === 'Enter') choose(finder, finder.at);
  else if (event.key === 'Escape' && !finder.list.hidden) close(finder);
  else return;
  event.preventDefault();
};
