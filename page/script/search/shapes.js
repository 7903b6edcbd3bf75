// Whether a conflict is a circle of activities or a path between two windows, and how long it takes.

const startOf = step => step.isForward ? step.activity.first : step.activity.last;
const endOf = step => step.isForward ? step.activity.last : step.activity.first;
const leastOf = steps => steps.reduce((sum, { activity, isForward }) => sum + (isForward ? activity.lower : -activity.upper), 0);
const backOf = steps => [...steps].reverse().map(({ activity, isForward }) => ({ activity, isForward: !isForward }));
const forwardOf = steps => steps.filter(step => step.isForward).length;

// The circle or the path that some members form, or null if they are neither.
export const shapeOf = (members, network) => {
  const used = members.filter(({ of }) => of === 'activity').map(({ number }) => network.activities.get(number));
  const windows = new Map(members.filter(({ of }) => of === 'event').map(({ number, bounds }) => [number, bounds]));
  if (![0, 2].includes(windows.size) || !used.length) return null;
  const start = windows.size ? Math.min(...windows.keys()) : used[0].first, steps = walk(start, used);
  if (steps.length !== used.length) return null;
  const events = [start, ...steps.map(endOf)], end = events[events.length - 1], count = new Set(events).size;
  if (!windows.size) return end === start && count === steps.length ? shapeAlong(turned(steps), network.period, null) : null;
  if (!windows.has(end) || end === start || count !== events.length) return null;
  return shapeAlong(turned(steps), network.period, windows);
};

// The steps from an event on, as long as there is exactly one unused; at the first event of a circle any.
const walk = (start, activities) => {
  const left = [...activities], steps = [];
  for (let event = start; left.length;) {
    const following = left.filter(each => each.first === event || each.last === event);
    if (!following.length || (steps.length && following.length > 1)) break;
    steps.push({ activity: following[0], isForward: following[0].first === event });
    left.splice(left.indexOf(following[0]), 1);
    event = endOf(steps[steps.length - 1]);
  }
  return steps;
};

// The steps in the direction in which they take time rather than subtract it; otherwise in that of most activities.
const turned = steps => {
  const back = backOf(steps), sum = leastOf(steps) - leastOf(back);
  return sum > 0 || (sum === 0 && forwardOf(steps) >= forwardOf(back)) ? steps : back;
};

// A shape with the least and the most minutes along it, and the possible durations: the nearest below and above.
const shapeAlong = (steps, period, windows) => {
  const least = leastOf(steps), most = -leastOf(backOf(steps)), start = startOf(steps[0]), end = endOf(steps[steps.length - 1]);
  let shortest = 0, width = 0;
  if (windows) {
    const [first, last] = [windows.get(start), windows.get(end)];
    shortest = last.first - (first.first + first.length - 1);
    width = first.length + last.length - 2;
  }
  const below = shortest + Math.floor((most - shortest) / period) * period;
  return { steps, isCircle: !windows, start, end, least, most, wanted: [[below, below + width], [below + period, below + period + width]] };
};
