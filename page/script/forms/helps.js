// What each number means, in words, beside it: a button with a question mark opens them.

import { costName, sentence } from '../session/costs.js';
import { element, find, findAll, setAttribute } from '../base/elements.js';

const HELP = {
  size: ['The network', 'Events are departures and arrivals. An activity, as a run, a dwell, a change or a headway, says how many '
    + 'minutes may lie between two of them. All repeats after the period.'],
  cost: [() => sentence(costName()), 'Of each activity the minutes beyond its least ones, times its weight, all together. Less is better.'],
  violated: ['Violated', 'So many activities take too few or too many minutes in the timetable shown, or events are not where '
    + 'they are held. At 0 all is met.'],
  limited: ['Limited', 'So many events cannot be at each minute any more, by what is held and by least and most minutes: their blue is not '
    + 'the whole strip.'],
  attempts: ['Attempts', 'The search makes one attempt after another: “Try” so many, “Find the optimum” until none is left. “At most '
    + '2 % above the best”: no timetable is better by more than that.'],
  minutes: ['Minutes', 'At all others there is no timetable, by what is held. “Held from … for …” allows just these; “time” is '
    + 'that of the timetable shown. 6:15 may be typed for 375.'],
  activity: ['Activities', '“From … to”: the least and most minutes between its two events. “Takes”: the minutes in the timetable '
    + 'shown. “Slack”: those beyond the least. “Weight”: how much each minute of slack counts.'],
};

const GAP = 6;

const titleOf = ({ dataset }) => {
  const [title] = HELP[dataset.help];
  return typeof title === 'string' ? title : title();
};

const show = button => {
  const [, text] = HELP[button.dataset.help], title = titleOf(button), words = find('helping'), { left, bottom } = button.getBoundingClientRect();
  words.replaceChildren(element('b', {}, title), element('p', {}, text));
  words.showPopover();
  const { width, height } = words.getBoundingClientRect();
  words.style.left = `${Math.max(GAP, Math.min(left, document.documentElement.clientWidth - width - GAP))}px`;
  words.style.top = `${Math.max(GAP, Math.min(bottom + GAP, window.innerHeight - height - GAP))}px`;
};

export const helpsPanel = {
  build: () => findAll('[data-help]').forEach(button => setAttribute(button, 'aria-label', `What is this: ${titleOf(button)}`)),
  update: () => {},
};

export const startHelps = () => findAll('[data-help]').forEach(button => button.addEventListener('click', () => show(button)));
