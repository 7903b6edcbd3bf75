// The times of the working timetable, by event and ascending. No reply returns them, so they are tracked: those of the file
// of times, changed by each line that was answered by `ok` (following.js).

import { rowsIn } from './records.js';

export const wordsOf = line => line.split(/[ \t\r]+/).filter(Boolean);

export const isAdopt = line => wordsOf(line)[0] === 'adopt';

// A map by number, ascending.
export const ascending = map => new Map([...map].sort(([one], [other]) => one - other));

// The times in the file of times for the events that exist when it is read.
export const timesOfFile = ({ times, period }, events) => {
  const known = new Set(events), found = new Map();
  for (const { fields } of rowsIn(times)) {
    const [event, time] = fields.map(Number);
    if (known.has(event)) found.set(event, ((time % period) + period) % period);
  }
  return ascending(found);
};
