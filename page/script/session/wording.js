// The effect of edits, and the program's reasons for a refusal, in a planner's words: commands are only in Steps.

import { within } from './display.js';
import { readEdit } from '../base/edits.js';
import { activityName, clock, eventName, spanMinutes, spanText, windowText } from './names.js';
import { RunFault } from '../base/running.js';
import { wordsOf } from '../base/times.js';

const endsText = ({ first, last }) => `from ${eventName(first)} to ${eventName(last)}`;

// The change of an activity.
export const changesOf = (old, now) => [
  old.first === now.first && old.last === now.last ? '' : `${endsText(now)}, was ${endsText(old)}`,
  old.lower === now.lower && old.upper === now.upper ? ''
    : `${spanMinutes(now.lower, now.upper)}, was ${spanText(old.lower, old.upper)}`,
  old.weight === now.weight ? '' : `weight ${now.weight.toLocaleString('en')}, was ${old.weight.toLocaleString('en')}`,
].filter(Boolean).join(', ');

const nameIn = ({ activities }, number) => activities.has(number) ? activityName(activities.get(number)) : `activity ${number}`;

const changed = ([number], before, after) => {
  const [old, now] = [before, after].map(({ activities }) => activities.get(number));
  return `${nameIn(before, number)}: ${(old && now && changesOf(old, now)) || 'as before'}`;
};

// For each kind of edit its effect, by its numbers and the network before and after it.
const DONE = {
  addEvent: ([event]) => `${eventName(event)} added`,
  dropEvent: ([event]) => `${eventName(event)} dropped`,
  addActivity: ([number], _, after) => `${nameIn(after, number)} added`,
  dropActivity: ([number], before) => `${nameIn(before, number)} dropped`,
  span: changed, weight: changed, ends: changed,
  fix: ([event, first]) => `${eventName(event)}: held at ${clock(first)}`,
  window: ([event, first, length], { period }) => `${eventName(event)}: held ${windowText({ first, length }, period)}`,
  unfix: ([event]) => `${eventName(event)}: no longer held`,
  time: ([event, time]) => `${eventName(event)} at ${clock(time)}`,
  untime: ([event]) => `${eventName(event)}: without a time`,
};

export const countText = count => `${count} change${count === 1 ? '' : 's'}`;

// The effect of some edits together.
export const editsText = ([first, ...others], before, after = before) => !first ? 'other names'
  : `${DONE[first.kind](first.numbers, before, after)}${others.length ? `, and ${countText(others.length).replace(' ', ' more ')}` : ''}`;

// Why the program refuses an edit; a text that is complete alone.
const REASONS = [
  [/^refused 3 /, () => 'activities are still at it'],
  [/^refused 4 time ([0-9]+)/, ([, time]) => `minute ${time} is beyond the period`],
  [/^refused 9 /, () => 'nothing holds it'],
  [/^refused 11 /, () => 'it has no time'],
  [/^refused 13 length ([0-9]+)/, ([, length]) => `it cannot be held for ${length} minutes of the period`],
  [/^fault lower bound/, () => 'the least minutes are more than the most'],
  [/^fault word ([0-9]+) is not a number/, ([, place], line) => `“${wordsOf(line)[Number(place) - 1]}” is no whole number`],
  [/^fault word ([0-9]+) is out of range/, ([, place], line) => `“${wordsOf(line)[Number(place) - 1]}” is out of range`],
], ALONE = [
  [/^refused 12 /, () => 'no timetable meets everything'],
  [/^(?:refused [0-9]+|fault) (.*)/, ([, text]) => text],
];

const OF_EVENTS = ['addEvent', 'dropEvent', 'fix', 'window', 'unfix', 'time', 'untime'];

// The object of an edit; '' if its line has no such number.
const subjectOf = ({ kind, numbers: [number, first, last] }, network) => {
  if (!kind || !Number.isInteger(number)) return '';
  if (kind === 'addActivity') return endsText({ first, last });
  return OF_EVENTS.includes(kind) ? eventName(number) : nameIn(network, number);
};

export const refusalText = (edit, reply, network) => {
  const tell = reasons => reasons.map(([form, words]) => form.test(reply) && words(form.exec(reply), edit.line)).find(Boolean), reason = tell(REASONS);
  return reason ? [subjectOf(edit, network), reason].filter(Boolean).join(': ') : tell(ALONE) || reply;
};

// The fault of a line that was refused when a network with these labels was opened, in words; any other fault unchanged.
export const faultInWords = (fault, period, labels) => {
  const { refused } = fault, network = refused?.network || { period, activities: new Map() };
  return refused ? new RunFault(within({ network }, () => refusalText(readEdit(refused.line), refused.reply, network), labels)) : fault;
};
