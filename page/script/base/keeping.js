// Keeps the focus nearby: if drawing removes or disables the focused element, the one in its place gets the focus.

const PANELS = '[role=tabpanel], form, section, dialog, header';
// Not a text field: there, Ctrl+Z undoes typing.
const HANDS = 'a, button, input[type=checkbox], summary, [tabindex="0"]:not(input)';

const isGone = node => !node.isConnected || node.disabled || Boolean(node.closest('[hidden]'));

const handsIn = panel => [...panel.querySelectorAll(HANDS)].filter(node => node.tabIndex >= 0 && !isGone(node));

// The panels around an element, the nearest first, each with its place among the controls there.
const panelsOf = node => {
  const found = [];
  for (let panel = node.closest(PANELS); panel; panel = panel.parentElement.closest(PANELS)) found.push({ panel, place: Math.max(0, handsIn(panel).indexOf(node)) });
  return found;
};

// Focuses the first element that accepts it, and returns whether one did.
const given = nodes => nodes.some(node => {
  node.focus({ preventScroll: true });
  return document.activeElement === node;
});

// The elements now at a place, those that were before it last.
const around = (hands, place) => [...hands.slice(place), ...hands.slice(0, place).reverse()];

// Draws something. The focus stays on an element that is held on a strip or in a drawing, or moves to the chosen event.
export const keepingKeys = draw => {
  /** @type {any} */
  const node = document.activeElement, isOnPage = Boolean(node) && node !== document.body && !isGone(node);
  const panels = isOnPage && !node.matches('[role=slider]') ? panelsOf(node) : [];
  draw();
  if (!isOnPage || !isGone(node)) return;
  const isGiven = panels.some(({ panel, place }) => !isGone(panel) && given(around(handsIn(panel), place)));
  if (!isGiven) given([...document.querySelectorAll('.strip[tabindex="0"]'), document.getElementById('open')]);
};
