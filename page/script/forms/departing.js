// The departure of the chosen event's train, from which its other times follow by its least minutes; tied trains follow too.

import { display } from '../session/display.js';
import { edit } from '../base/edits.js';
import { element, find, setText } from '../base/elements.js';
import { factForm, minuteOf, minutesField } from './fields.js';
import { clock, labelOf, minuteField, trainName } from '../session/names.js';
import { doStep } from '../session/session.js';
import { trainAt } from '../session/trains.js';
import { tiedTrains } from './twins.js';

// The times of a train that leaves at a minute.
const timesFrom = ({ events, steps }, minute) => {
  const { activities, period } = display.view.network;
  let time = minute;
  return events.map((event, place) => {
    if (place) time += activities.get(steps[place - 1]).lower;
    return edit.time(event, ((time % period) + period) % period);
  });
};

const depart = () => {
  const { train } = trainAt(display.chosen), minute = minuteOf(find('depart-at'));
  const lines = tiedTrains(train).flatMap(tied => timesFrom(tied.train, minute + tied.minutes));
  doStep(lines, { title: `${trainName(train, train.events[0])} leaves ${train.stations[0]} at ${clock(minute)}, with its least minutes` });
};

const form = () => factForm(depart, element('label', { for: 'depart-at' }), minutesField({ id: 'depart-at', required: true }), element('button', { id: 'depart' }, 'Set its times'), ' by its least minutes');

export const departingPanel = {
  build: () => {
    if (!find('depart-at')) find('move').prepend(form());
  },
  update: view => {
    const of = trainAt(display.chosen), field = find('depart-at');
    if (!of) return;
    const [first] = of.train.events, time = view.times.get(first);
    setText(field.previousSibling, `its train leaves ${labelOf(first).station} at`);
    if (document.activeElement !== field) field.value = time === undefined ? '' : minuteField(time);
  },
};
