// Replies of the program, parsed as docs/FORMATS.md defines. Nothing is computed from them here.

// The word of a reply's first line that gives the number of lines that follow.
const COUNTS = { domains: 1, tensions: 1, violations: 1, optimum: 2, stopped: 2, '#': 4 };

// The replies of a text, each as the list of its lines.
export const splitReplies = text => {
  const lines = text ? linesOfReply(text) : [], replies = [];
  for (let place = 0; place < lines.length;) {
    const words = lines[place].split(' ', 5);
    const more = Number(words[COUNTS[words[0]]]) || 0;
    replies.push(more ? lines.slice(place, place + 1 + more) : [lines[place]]);
    place += 1 + more;
  }
  return replies;
};

// The lines of a text, each of which ends with a line feed.
export const linesOfReply = text => text.slice(0, -1).split('\n');

export const isRefused = reply => /^(refused|fault) /.test(reply[0]);

// The contents of the lines after a first line, each by its number, read by a function. Unchanged lines keep their values,
// since a step changes few of them; and so does an unchanged reply.
/** @param {function(string): any} read */
const remembered = read => {
  let before = [], values = [], made = null;
  return reply => {
    if (reply === before) return made;
    const found = [];
    for (let place = 1, old = 1; place < reply.length; place += 1) {
      const line = reply[place];
      // A previous line was removed.
      if (line !== before[old] && line === before[old + 1]) old += 1;
      if (line === before[old]) found.push(values[old - 1]);
      else found.push(read(line));
      // If a line was inserted between two previous ones, the previous one still follows.
      if (line === before[old] || reply[place + 1] !== before[old]) old += 1;
    }
    before = reply;
    values = found;
    made = new Map(found);
    return made;
  };
};

const numbersOf = text => text.split(' ').map(Number);

// For each event the minutes at which it can still be.
export const readDomains = remembered(line => {
  const end = line.indexOf(':');
  return [Number(line.slice(0, end)), line.length > end + 2 ? numbersOf(line.slice(end + 2)) : []];
});

const tensionLines = remembered(line => {
  const [activity, tension, slack] = numbersOf(line);
  return [activity, { tension, slack }];
});

// For each activity its tension and slack; null if the working timetable lacks a time.
export const readTensions = reply => isRefused(reply) ? null : tensionLines(reply);

// The violated activities and events; null if a time is missing.
export const readViolations = reply => {
  if (isRefused(reply)) return null;
  const found = { activities: new Set(), events: new Set() };
  for (const line of reply.slice(1)) {
    const [kind, number] = line.split(' ');
    (kind === 'activity' ? found.activities : found.events).add(Number(number));
  }
  return found;
};

// A cost is a number, or a BigInt if it is too large for an exact number.
export const exactly = text => Number.isSafeInteger(Number(text)) ? Number(text) : BigInt(text);

export const readCost = reply => isRefused(reply) ? null : exactly(reply[0].split(' ')[1]);

// The reply to a search: `optimum`, `infeasible`, `stopped`, or `none` if it stopped without a timetable.
export const readFound = reply => {
  const words = reply[0].split(' ');
  if (words[0] === 'infeasible') return { kind: 'infeasible' };
  if (words[1] === 'none') return { kind: 'none' };
  return { kind: words[0], cost: exactly(words[1]), times: new Map(reply.slice(1).map(numbersOf)) };
};

// The same by the number of its state in embedded/pespbench.h.
const STATES = ['none', 'stopped', 'optimum', 'infeasible'];

// The same for a search whose result is in numbers, with a lower bound of all costs, and whether the next call resumes it.
export const foundIn = ({ state, cost, lowerBound, goesOn, times }, events) => {
  const kind = STATES[state], bound = exactly(String(lowerBound));
  if (kind === 'infeasible') return { kind };
  if (kind === 'none') return { kind, bound, goesOn };
  return { kind, bound, goesOn, cost: exactly(String(cost)), times: new Map(events.map((event, place) => [event, times[place]])) };
};

// Whether a search has ended.
export const isSure = ({ kind }) => kind === 'optimum' || kind === 'infeasible';
