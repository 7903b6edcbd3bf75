// Elements of the page. Texts are always set as text, so that nothing in a label is read as markup.

const SVG = 'http://www.w3.org/2000/svg';

const fill = (made, attributes, children) => {
  for (const [name, value] of Object.entries(attributes)) {
    if (name.startsWith('on')) made.addEventListener(name.slice(2), value);
    else if (value !== null && value !== undefined && value !== false) made.setAttribute(name, value === true ? '' : value);
  }
  made.append(...children.filter(child => child !== null && child !== undefined && child !== false));
  return made;
};

// An element with attributes, listeners (`onclick`, ..) and children; strings become text.
export const element = (tag, attributes = {}, ...children) => fill(document.createElement(tag), attributes, children);

export const drawing = (tag, attributes = {}, ...children) => fill(document.createElementNS(SVG, tag), attributes, children);

/** @returns {any} */
export const find = id => document.getElementById(id);

/** @returns {any[]} */
export const findAll = selector => [...document.querySelectorAll(selector)];

// Sets a text if it differs, since setting costs a layout. An element that has a text keeps its node, so that a browser creates
// nothing.
export const setText = (node, text) => {
  const { firstChild } = node, isOne = firstChild && firstChild === node.lastChild && firstChild.nodeType === Node.TEXT_NODE;
  if (node.textContent === text) return;
  if (isOne && text) firstChild.data = text;
  else node.textContent = text;
};

// The remark of a list that shows only its first entries; '' if it shows all.
export const elided = (count, most, what) => count <= most ? ''
  : `Elided: of ${count.toLocaleString('en')} ${what} the first ${most.toLocaleString('en')} are shown.`;

export const setAttribute = (node, name, value) => {
  if (value === null) {
    if (node.hasAttribute(name)) node.removeAttribute(name);
  } else if (node.getAttribute(name) !== String(value)) node.setAttribute(name, value);
};

// Makes a node equal to another one, without listeners: equal parts stay, so that a browser does not lay them out and paint
// them again.
const renewNode = (node, wanted) => {
  if (node.isEqualNode(wanted)) return;
  if (node.nodeType !== Node.ELEMENT_NODE || node.nodeName !== wanted.nodeName) {
    node.replaceWith(wanted);
    return;
  }
  for (const { name, value } of [...wanted.attributes]) setAttribute(node, name, value);
  for (const { name } of [...node.attributes]) if (!wanted.hasAttribute(name)) node.removeAttribute(name);
  renew(node, wanted.childNodes);
};

// The same for the children of a node, or those after the first ones.
export const renew = (holder, wanted, first = 0) => {
  const before = [...holder.childNodes].slice(first), after = [...wanted];
  after.forEach((node, place) => place < before.length ? renewNode(before[place], node) : holder.append(node));
  before.slice(after.length).forEach(node => node.remove());
};

// The message that a screen reader reads and the line below the buttons shows; `alarm` if something was refused.
export const say = (text, isAlarm = false) => {
  const line = find('said');
  line.textContent = text;
  line.classList.toggle('alarm', isAlarm);
};

const headsOf = names => names.map(each => typeof each === 'string' ? element('th', { scope: 'col' }, each) : each);

// A table of rows below one or more rows of heads, which are texts or elements.
export const tableOf = (look, heads, rows) => element('table', { class: look },
  element('thead', {}, ...(Array.isArray(heads[0]) ? heads : [heads]).map(names => element('tr', {}, ...headsOf(names)))),
  element('tbody', {}, ...rows));

// A row of it: a name, followed by cells, which are texts or elements.
export const rowOf = (name, cells, more = {}) => element('tr', more, element('th', { scope: 'row' }, name),
  ...cells.map(each => typeof each === 'object' ? each : element('td', {}, each)));

// Whether the focus is in a live element; a browser moves it from a removed element slightly later.
const hasKeys = node => node !== document.body && !node.disabled && node.getClientRects().length > 0;

// Focuses an element if nothing has the focus, since the focused element was removed.
export const lead = node => {
  if (node && !hasKeys(document.activeElement)) node.focus();
};

let readyAt = null;

// Reports that there is something to see.
export const tellReady = () => {
  document.body.classList.add('ready');
  requestAnimationFrame(() => { readyAt = performance.now(); });
};

// The milliseconds from the request for the page to that; null before.
export const readyAfter = () => readyAt;

// Appends to the current message.
export const sayMore = text => say([find('said').textContent, text].filter(Boolean).join(' — '));
