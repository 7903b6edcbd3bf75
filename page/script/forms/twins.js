// Trains an hour: equal trains of a line, each of whose events is tied to that of the first one at a fixed distance, so that the
// search has one train. They have no changes of their own, since passengers use one of the trains.

import { display } from '../session/display.js';
import { addActivity, copyEvents, dropEvents } from './making.js';
import { trainName } from '../session/names.js';
import { trainAt } from '../session/trains.js';

const TIE = 'twin', HOUR = 60;

// How many trains a period has at this many an hour, and how many minutes are between two; one if nothing is typed. Raises Error.
export const rhythmOf = text => {
  const { period } = display.view.network, minutes = text ? HOUR / Number(text) : period, count = period / minutes;
  if (!Number.isInteger(minutes) || !Number.isInteger(count) || count < 1) throw new Error(`${text} trains an hour cannot come each some whole minutes in a period of ${period}.`);
  return { count, minutes };
};

// The number of trains an hour if a period has this many; '' if that is not a whole number.
export const hourlyText = count => Number.isInteger(count * HOUR / display.view.network.period) ? String(count * HOUR / display.view.network.period) : '';

// Ties the events of a train to those of its twin, which is this many minutes later.
export const tie = (made, events, others, minutes) =>
  events.forEach((event, place) => addActivity(made, [event, others[place]], [minutes, minutes], 0, TIE));

// The trains that are tied to one, including itself, each with the minutes by which it is later.
export const tiedTrains = train => {
  const ties = [...display.view.network.activities.values()].filter(({ number }) => display.labels.kinds.get(number) === TIE);
  const own = ties.find(({ last }) => last === train.events[0]) || { first: train.events[0], lower: 0 };
  const others = ties.filter(({ first }) => first === own.first);
  return [{ first: own.first, lower: 0 }, ...others.map(({ last, lower }) => ({ first: last, lower }))].filter(({ first }) => trainAt(first))
    .map(({ first, lower }) => ({ train: trainAt(first).train, minutes: lower - own.lower }));
};

// Whether others are tied to a train.
export const isFirst = train => tiedTrains(train).every(({ minutes }) => minutes >= 0);

const familyOf = ({ to, stations }) => JSON.stringify([to, stations]);

// For each direction of a line the train to which the others are tied. Raises Error if some are not.
const leadsOf = ({ trains }) => {
  const leads = trains.filter(isFirst), known = new Map();
  for (const train of leads) {
    if (known.has(familyOf(train))) throw new Error(`${[train, known.get(familyOf(train))].map(each => trainName(each, each.events[0])).join(' and ')} are not tied to each other. Drop one of them first.`);
    known.set(familyOf(train), train);
  }
  return leads;
};

// Adds twins to the trains of a line until they run at this interval; existing ones stay.
export const setRhythm = (made, line, { count, minutes }) => {
  for (const lead of leadsOf(line)) {
    const others = tiedTrains(lead).slice(1), wanted = [...Array(count).keys()].slice(1).map(place => place * minutes);
    dropEvents(made, others.filter(each => !wanted.includes(each.minutes)).flatMap(({ train }) => train.events));
    for (const later of wanted.filter(each => !others.some(other => other.minutes === each))) tie(made, lead.events, copyEvents(made, lead.events, later), later);
  }
};
