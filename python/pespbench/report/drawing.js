'use strict';

// Draws a report with the scripts of the page, under Node: `node drawing.js PAGE netgraph|report`, with the content on standard
// input. The page's scripts create elements of a document; the one here implements as much of it as drawing needs.

const fs = require('fs'), vm = require('vm');

const escaped = text => text.replace(/[&<>"]/g, letter => `&#${letter.charCodeAt(0)};`);
const VOID = ['br', 'hr', 'img', 'input', 'link', 'meta'];

class Element {
  constructor(tag) { Object.assign(this, { tagName: tag, attributes: new Map(), childNodes: [], parentNode: null, style: {}, dataset: {} }); }

  setAttribute(name, value) { this.attributes.set(name, String(value)); }
  getAttribute(name) { return this.attributes.has(name) ? this.attributes.get(name) : null; }
  hasAttribute(name) { return this.attributes.has(name); }
  removeAttribute(name) { this.attributes.delete(name); }
  addEventListener() {}

  append(...nodes) {
    for (const node of nodes) {
      if (node instanceof Element) node.parentNode = this;
      this.childNodes.push(node instanceof Element ? node : String(node));
    }
  }

  replaceChildren(...nodes) {
    this.childNodes = [];
    this.append(...nodes);
  }

  get textContent() { return this.childNodes.map(node => node instanceof Element ? node.textContent : node).join(''); }
  set textContent(text) { this.replaceChildren(...text === '' ? [] : [text]); }

  get classList() {
    const names = (this.getAttribute('class') || '').split(' ').filter(Boolean);
    return { contains: name => names.includes(name), toggle: (name, isOn) => this.setAttribute('class', [...names.filter(each => each !== name), ...isOn ? [name] : []].join(' ')) };
  }

  get ownerSVGElement() {
    let at = this.parentNode, last = null;
    for (; at; at = at.parentNode) if (at.tagName === 'svg' && !last) last = at;
    return last;
  }

  get viewBox() {
    const [x, y, width, height] = this.getAttribute('viewBox').split(' ').map(Number);
    return { baseVal: { x, y, width, height } };
  }

  get children() { return this.childNodes.filter(node => node instanceof Element); }

  // The elements within that have a tag and a class, such as `text.end`.
  querySelectorAll(selector) {
    const [tag, name] = selector.split('.');
    return this.children.flatMap(node => [...node.tagName === tag && (node.getAttribute('class') || '').split(' ').includes(name) ? [node] : [], ...node.querySelectorAll(selector)]);
  }

  toString() {
    const style = Object.entries(this.style).map(([name, value]) => `${name.replace(/[A-Z]/g, letter => `-${letter.toLowerCase()}`)}: ${value}`).join('; ');
    const all = [...this.attributes, ...style ? [['style', style]] : []].map(([name, value]) => ` ${name}="${escaped(value)}"`).join('');
    const inner = this.childNodes.map(node => node instanceof Element ? String(node) : escaped(node)).join('');
    return VOID.includes(this.tagName) ? `<${this.tagName}${all}>` : `<${this.tagName}${all}>${inner}</${this.tagName}>`;
  }
}

const make = tag => new Element(tag);
const document = { createElement: make, createElementNS: (_, tag) => make(tag), getElementById: () => make('div'), body: make('body') };

// The page's scripts without the last one, which starts the page; the one before returns the drawing functions.
const started = html => {
  const scripts = [...html.matchAll(/<script(?: data-modules=\w+)?>([^]*?)<\/script>/g)].map(found => found[1]).slice(1, -1);
  const context = vm.createContext({ document, performance, TextEncoder, TextDecoder, console });
  vm.runInContext('var window = { addEventListener() {} };', context);
  for (const script of scripts) vm.runInContext(script, context);
  return vm.runInContext('window.Page', context);
};

// A picture has no style variables: its colors are those of the light page.
const picture = (html, svg) => {
  const styles = [...html.matchAll(/<style>([^]*?)<\/style>/g)].map(found => found[1]).join(''), [, root] = /:root \{([^}]*)\}/.exec(styles);
  const colors = new Map([...root.matchAll(/--([\w-]+): *([^;]+)/g)].map(([, name, color]) => [name, color.trim()]));
  const plain = text => text.replace(/var\(--([\w-]+)\)/g, (_, name) => colors.get(name));
  const rules = [...styles.matchAll(/([^{}]*)\{([^{}]*)\}/g)].map(([, name, rule]) => [name, rule].map(each => each.replace(/\s+/g, ' ').trim()))
    .filter(([name]) => /^(svg (text|tspan)|\.ring|path\.broken)/.test(name)).map(([name, rule]) => `${name} { ${rule} }`).join('\n');
  const [x, y, width, height] = svg.getAttribute('viewBox').split(' ');
  svg.style = {};
  for (const [name, value] of Object.entries({ xmlns: 'http://www.w3.org/2000/svg', width, height, 'font-family': 'sans-serif' })) svg.setAttribute(name, value);
  const ground = make('rect'), style = make('style');
  for (const [name, value] of Object.entries({ x, y, width, height, fill: '#fff' })) ground.setAttribute(name, value);
  style.append(rules);
  svg.childNodes.unshift(style, ground);
  return `${plain(String(svg))}\n`;
};

const empty = Page => Page.drawing('svg', { viewBox: '0 0 1 1', role: 'img', 'aria-label': 'Netgraph' });

const main = ([path, what]) => {
  const html = fs.readFileSync(path, 'utf-8'), told = JSON.parse(fs.readFileSync(0, 'utf-8')), Page = started(html), view = Page.viewOfReport(told);
  if (what === 'report') return `${Page.reportOf(view, told).join('\n')}\n`;
  const isDrawn = new Set(view.lines.flatMap(line => line.stations)).size > 1;
  return picture(html, isDrawn ? Page.netgraphOf(view).drawn : empty(Page));
};

process.stdout.write(main(process.argv.slice(2)));
