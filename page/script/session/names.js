// Events and activities in a planner's words: by stations and lines if there are labels, otherwise by numbers.

import { display } from './display.js';

const NONE = { line: '', to: '', station: '', kind: '' };
const DONE = new Map([['departure', 'leaves'], ['arrival', 'arrives at']]);
const SHORT = new Map([['departure', 'dep.'], ['arrival', 'arr.']]);

export const labelOf = event => display.labels.events.get(event) || NONE;

// The kind of an activity, by the labels.
export const kindOf = number => display.labels.kinds.get(number) || 'activity';

// Among trains with the same beginning, one is distinguished by its minute, if an event of it is given.
export const trainName = ({ line, to }, event) => `${[line, to].filter(Boolean).join(' to ') || 'a train'}${twinText(event)}`;

export const twinText = event => display.view.twins?.has(event) ? ` (${display.view.twins.get(event)})` : '';

export const eventName = event => {
  const label = labelOf(event);
  if (!label.station) return `event ${event}`;
  if (DONE.has(label.kind)) return `${trainName(label, event)} ${DONE.get(label.kind)} ${label.station}`;
  return [trainName(label, event), label.kind, 'at', label.station].filter(Boolean).join(' ');
};

// An event within its train.
export const eventShort = event => {
  const { station, kind } = labelOf(event);
  return station ? { place: station, kind: SHORT.get(kind) || kind } : { place: `event ${event}`, kind: '' };
};

export const activityName = ({ number, first, last }) => {
  const kind = kindOf(number), [from, to] = [labelOf(first), labelOf(last)];
  if (!from.station || !to.station) return `${kind} ${number} from ${eventName(first)} to ${eventName(last)}`;
  const where = from.station === to.station ? from.station : `${from.station} and ${to.station}`;
  if (from.line === to.line && from.to === to.to) {
    if (from.station === to.station) return `${kind} of ${trainName(from, first)} at ${from.station}`;
    return `${kind} of ${from.line || trainName(from)}${twinText(first)} from ${from.station} to ${to.station}`;
  }
  if (from.line === to.line && from.station === to.station && kind === 'turnaround') return `${kind} of ${from.line} at ${from.station}`;
  const trains = kind === 'headway' ? ['between', 'and'] : ['from', 'into'];
  return `${kind} at ${where} ${trains[0]} ${trainName(from, first)} ${trains[1]} ${trainName(to, last)}`;
};

// A name in a drawing, with room for this many letters.
export const shortText = (name, most) => name.length <= most ? name : `${name.slice(0, most - 1).trimEnd()}…`;

// How many minutes are between two marks of an axis that shows this many of a period, with room for this many marks.
export const stepOf = (count, period = count, room = period > 60 ? 7 : 12) =>
  [1, 2, 5, 10, 15, 30, 60, 120, 240].find(step => count / step <= Math.min(room, period > 60 ? 24 : 12)) || 360;

const twoDigits = number => String(number).padStart(2, '0');

// Above an hour all minutes are written with the hour.
export const isOfHours = () => display.view.network.period > 60;

const hours = minutes => `${Math.floor(minutes / 60)}:${twoDigits(minutes % 60)}`;

// How long something takes: `7`, or `1:05` from an hour on.
const isLong = minutes => isOfHours() && Math.abs(minutes) >= 60;
export const lengthText = (minutes, isHours = isLong(minutes)) => isHours ? `${minutes < 0 ? '-' : ''}${hours(Math.abs(minutes))}` : String(minutes);

// The unit after that.
export const unitText = minutes => isLong(minutes) ? 'h' : minutes === 1 ? 'minute' : 'minutes';
export const minutesText = count => `${lengthText(count)} ${unitText(count)}`;

// By how many minutes something is later or longer.
export const signedMinutes = more => more > 0 ? `+${lengthText(more)}` : more < 0 ? `−${lengthText(-more)}` : '0';

// A span, both of whose ends are written like the longer one.
export const spanText = (lower, upper) => {
  const ends = [lower, upper].map(end => lengthText(end, isLong(lower) || isLong(upper)));
  return lower === upper ? ends[0] : ends.join(' to ');
};
export const spanMinutes = (lower, upper) => `${spanText(lower, upper)} ${isLong(lower) || isLong(upper) ? 'h' : 'minutes'}`;

// A minute of the period, as `:07`, or `23:41`.
export const clock = minute => isOfHours() ? hours(minute) : `:${twoDigits(minute)}`;

// The same in a field: minutes that are written without the hour are numbers there.
export const minuteField = minute => isOfHours() ? clock(minute) : String(minute);

// The same in a table of minutes, as `07`.
export const bareClock = minute => clock(minute).replace(/^:/, '');

export const windowText = ({ first, length }, period) => length === 1 ? `at ${clock(first)}`
  : `from ${clock(first)} to ${clock((first + length - 1) % period)}`;

// Runs of minutes, each as its first and last one; a run that wraps around the end of the period is one.
export const runsOf = minutes => {
  const runs = [];
  for (const minute of minutes) {
    if (runs.length && runs[runs.length - 1][1] === minute - 1) runs[runs.length - 1][1] = minute;
    else runs.push([minute, minute]);
  }
  return runs;
};

export const domainText = (minutes, period) => {
  if (minutes.length === period) return 'any minute';
  if (!minutes.length) return 'no minute';
  return runsOf(minutes).map(([first, last]) => first === last ? clock(first) : `${clock(first)}–${clock(last)}`).join(', ');
};

// The previous time of an event that a proposed timetable moves; '' if it does not.
export const oldText = ({ before, times }, event) => before?.times.has(event) && before.times.get(event) !== times.get(event) ? bareClock(before.times.get(event)) : '';
