// The answer to `Why?`, in a planner's words; one click makes each repair.

import { askFor } from './asking.js';
import { conflictsOf } from '../session/conflicts.js';
import { display } from '../session/display.js';
import { edit, windowEdit } from '../base/edits.js';
import { element, find, lead } from '../base/elements.js';
import { showRow } from '../forms/events.js';
import { bestKnown } from './founds.js';
import { activityName, eventName, minutesText, spanMinutes, spanText, windowText } from '../session/names.js';
import { memberKey } from './probing.js';
import { doStep, markNow, redraw } from '../session/session.js';
import { isTab, showTab } from '../session/tabs.js';

let answer = null;

const WHOLE = {
  possible: 'With each of these the whole network has a timetable:',
  untried: 'These mend the conflict, and the whole network was not tried with them:',
  undecided: 'These mend the conflict, and whether the whole network has a timetable then is undecided:',
  infeasible: 'With each of these another conflict is left:',
};

const NOTHING = 'Where no timetable meets everything, “Why?” finds the fewest activities and held events that cannot be met together, and '
  + 'the least changes that mend it.';

const showWhy = found => {
  answer = { ...found, mark: markNow() };
  redraw();
};

// The members of the kinds that must not change; `fixed` are fixed times and windows.
const keptMembers = () => {
  const kinds = new Set(find('kept-kinds').value.split(',').map(kind => kind.trim()).filter(Boolean));
  const { activities, windows } = display.view.network;
  const spans = [...activities.keys()].filter(number => kinds.has(display.labels.kinds.get(number))).map(number => ({ of: 'activity', number }));
  const held = kinds.has('fixed') ? [...windows.keys()].map(number => ({ of: 'event', number })) : [];
  return [...spans, ...held].map(memberKey);
};

const nameOf = ({ of, number }, network) => of === 'event' ? eventName(number) : activityName(network.activities.get(number));

const boundsOf = (of, bounds, period) => of === 'event' ? windowText(bounds, period) : spanMinutes(bounds.lower, bounds.upper);

// The members in the order of the circle or path, a window beside its event.
const ordered = ({ members, shape }) => {
  if (!shape) return members;
  const memberOf = (of, number) => members.find(member => member.of === of && member.number === number);
  return [memberOf('event', shape.start), ...shape.steps.map(({ activity }) => memberOf('activity', activity.number)), memberOf('event', shape.end)]
    .filter((member, place, all) => member && all.indexOf(member) === place);
};

const memberRow = (member, { shape }, network) => {
  const step = shape && shape.steps.find(({ activity }) => member.of === 'activity' && activity.number === member.number);
  const event = member.of === 'event' ? member.number : network.activities.get(member.number).first;
  return element('tr', {}, element('td', {}, element('button', { class: 'link', onclick: () => showRow(event) }, nameOf(member, network))),
    element('td', {}, boundsOf(member.of, member.bounds, network.period) + notesOf(step && !step.isForward, member.isKept)));
};

const notesOf = (isBackward, isKept) => {
  const notes = [isBackward ? 'against its direction' : '', isKept ? 'not to be changed' : ''].filter(Boolean);
  return notes.length ? ` (${notes.join(', ')})` : '';
};

const shapeText = ({ shape }) => {
  if (!shape) return '';
  const [below, above] = shape.wanted, sums = [below, above].filter(each => each[0] >= 0 || each === above);
  const wanted = sums.map(each => spanText(...each)).join(' or ');
  const taken = spanMinutes(shape.least, shape.most);
  return shape.isCircle ? `Once round this circle they take ${taken}, and have to take ${wanted}: a whole number of periods.`
    : `On this way from one held event to the other they take ${taken}, and have to take ${wanted}.`;
};

const claimText = ({ members, undecided, nodes }, network) => {
  if (!undecided.length) return members.length > 1 ? 'Without any one of them, the others have a timetable.' : '';
  const names = undecided.map(member => nameOf(member, network)).join(', ');
  return `Searches of ${nodes.toLocaleString('en')} attempts see no conflict in the others without one of them; undecided is that without ${names}.`;
};

const editOf = ({ member, after }) => member.of === 'event' ? windowEdit(member.number, after.first, after.length)
  : edit.span(member.number, after.lower, after.upper);

const changeOf = ({ member, after }, period) => {
  const [wanted, before] = [after, member.bounds].map(bounds => boundsOf(member.of, bounds, period));
  return `${wanted} in place of ${before.replace(/ (minutes|h)$/, '')}`;
};

const mendRow = (mend, network) => element('tr', {},
  element('td', {}, element('button', { class: 'mend', onclick: () => doStep([editOf(mend)]) }, `${minutesText(mend.minutes)} ${mend.isLess ? 'less' : 'more'}`)),
  element('td', {}, nameOf(mend.member, network)),
  element('td', {}, changeOf(mend, network.period)));

const mendsOf = ({ mends }, network) => {
  if (!mends.length) return [element('p', {}, 'Nothing that may be changed is seen to mend it alone.')];
  return [element('h3', {}, 'The least that mends it, by one change alone'), ...Object.keys(WHOLE).flatMap(whole => {
    const listed = mends.filter(mend => mend.whole === whole);
    const rows = listed.map(mend => mendRow(mend, network));
    return rows.length ? [element('p', {}, WHOLE[whole]), element('table', { class: 'rows' }, ...rows)] : [];
  })];
};

const conflict = (found, network) => [
  element('h3', {}, found.members.length > 1 ? `These ${found.members.length} cannot be met together` : 'This cannot be met'),
  element('table', { class: 'rows' }, ...ordered(found).map(member => memberRow(member, found, network))),
  ...[shapeText(found), claimText(found, network)].filter(Boolean).map(text => element('p', {}, text)), ...mendsOf(found, network),
];

const contentOf = network => {
  if (answer.kind === 'possible') return [element('p', {}, `${answer.isShown ? 'The timetable shown' : 'A timetable'} meets everything, so there is no conflict.`)];
  if (answer.kind === 'conflict') return conflict(answer, network);
  const nodes = answer.nodes.toLocaleString('en');
  return [element('p', {}, `Undecided: a search of ${nodes} attempts came to no timetable, and single activities show no conflict.`)];
};

const update = view => {
  if (answer && answer.mark !== markNow()) answer = null;
  if (!isTab('why')) return;
  find('reasons').replaceChildren(...(answer ? contentOf(view.network) : [element('p', { class: 'quiet' }, NOTHING)]));
};

export const tellingPanel = { update };

// The events at which the timetable shown violates something: a conflict is searched for there first.
const eventsViolated = view => [...conflictsOf(view).all.flatMap(({ activity: { first, last } }) => [first, last]), ...view.violations ? view.violations.events : []];

// Asks why, with some events held at minutes. If a timetable is known, that is the answer at once.
export const askWhy = held => {
  showTab('why');
  const known = held.length ? null : bestKnown();
  if (known) return showWhy({ kind: 'possible', isShown: known.isShown });
  const members = [...keptMembers(), ...held.map(([number]) => memberKey({ of: 'event', number }))];
  const asked = { kind: 'why', members, canLower: find('can-lower').checked, held, violated: eventsViolated(display.view) };
  return askFor(asked, { tell: ({ why }) => showWhy(why), end: () => lead(document.querySelector('#reasons .mend')) });
};

export const startTelling = () => {
  for (const name of ['ask-why', 'ask-mends']) find(name).addEventListener('click', () => askWhy([]));
};
