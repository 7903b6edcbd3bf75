// The violations in a netgraph: the path of a run and the ring of a station in red, with the actual and required minutes if no
// other red text is there, and otherwise with a mark.

import { isApart, PARTS, spotsOf } from './apart.js';
import { conflictsOf, detailsOf, shortConflicts } from '../session/conflicts.js';
import { drawing, setAttribute } from '../base/elements.js';
import { labelOf } from '../session/names.js';

const LETTER = 8, MARK = '✕', UPRIGHT = { origin: [0, 0], turn: 0 };

// The red mark of a violation, and its label, in a frame that may be rotated.
export const makeAlarm = (shape, place, frame = UPRIGHT) => ({ shape, label: drawing('text', { class: 'broken', ...place }), place, frame, drawn: '' });

// A label of a station is within the drawing. Its length is an estimate: measuring costs a layout.
const fitting = ({ label, place, frame }, length) => {
  if (frame !== UPRIGHT) return place;
  const { x, width } = label.ownerSVGElement.viewBox.baseVal, before = length * PARTS[place['text-anchor']];
  return { ...place, x: Math.max(x + before, Math.min(place.x, x + width - length + before)) };
};

const draw = (alarm, conflicts, taken) => {
  const whole = shortConflicts(conflicts).replace(' run', ''), length = LETTER * whole.length, { shape, label } = alarm, place = fitting(alarm, length);
  const spots = whole ? spotsOf(place, alarm.frame, length) : [], text = isApart(spots, taken) ? whole : MARK, drawn = `${text} ${whole}`;
  taken.push(...text === whole ? spots : spotsOf(alarm.place, alarm.frame, LETTER));
  if (alarm.drawn === drawn) return;
  alarm.drawn = drawn;
  shape.classList.toggle('broken', Boolean(text));
  label.replaceChildren(text, drawing('title', {}, detailsOf(conflicts)));
  setAttribute(label, 'data-activity', text ? conflicts[0].number : null);
  setAttribute(label, 'x', text === whole ? place.x : alarm.place.x);
};

// Draws the changes of alarms, of the lines of tracks by the events that leave on them, and of stations; `drawn` are those in red.
export const drawAlarms = (view, { trackLines, stations, drawn }) => {
  const found = new Map([...drawn].map(alarm => [alarm, []])), taken = [];
  drawn.clear();
  for (const conflict of conflictsOf(view).all) {
    const { first, last } = conflict.activity, [from, to] = [first, last].map(event => labelOf(event).station);
    const alarm = (from !== to && trackLines.get(first)) || stations.get(from) || stations.get(to);
    if (!alarm) continue;
    if (!found.has(alarm)) found.set(alarm, []);
    found.get(alarm).push(conflict);
    drawn.add(alarm);
  }
  for (const [alarm, conflicts] of found) draw(alarm, conflicts, taken);
};
