// A session whose searches start with a known timetable: they return none that is dearer, and search only for cheaper ones.

import { edit, readEdit } from '../base/edits.js';
import { does, openSession, prepared } from '../base/running.js';

// With more events it takes longer than it saves.
const MOST_EVENTS = 3000;

export const canPrime = times => times.size <= MOST_EVENTS;

// A session of the network of a `dump`, which starts with some times if there are any. A search first tries the optimum from
// before an edit, so the timetable is made one: that of its events, each fixed at its time, without activities. Raises RunFault.
export const sessionFrom = ([head, ...script], times) => {
  const isEvent = line => readEdit(line).kind === 'addEvent', period = Number(head.split(' ')[2]);
  if (!times || !canPrime(times)) return openSession({ period }, script);
  const fixed = [...times].map(([event, time]) => edit.fix(event, time).line), free = [...times.keys()].map(event => edit.unfix(event).line);
  const session = openSession({ period }, [...script.filter(isEvent), ...fixed]);
  return prepared(session, () => {
    session.ask('optimum');
    does(session, [...free, ...script.filter(line => !isEvent(line))]);
    return session;
  });
};
