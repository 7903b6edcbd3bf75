// Routes between stations over tracks, the shortest by the least minutes of runs.

import { lengthsOf, trackOf } from './frames.js';

// A run that passes stations at which another train stops is not a separate track, if it takes about as long.
const MOST_PASSED = 12;
export const AS_LONG = 1.5;

// The stations one run away from each, with the minutes.
export const neighboursOf = ({ lines, network }) => {
  const lengths = lengthsOf(lines, network), neighbours = new Map();
  for (const line of lines) for (const train of line.trains) leavePassing(train.stations, lengths);
  for (const [track, length] of lengths) {
    const [one, other] = JSON.parse(track);
    for (const [from, to] of [[one, other], [other, one]]) neighbours.set(from, [...neighbours.get(from) || [], { station: to, length }]);
  }
  return neighbours;
};

const leavePassing = (stations, lengths) => stations.forEach((station, first) => {
  let sum = 0;
  for (let place = first + 1; place < Math.min(stations.length, first + MOST_PASSED); place += 1) {
    sum += lengths.get(trackOf(stations[place - 1], stations[place])) || 0;
    const track = trackOf(station, stations[place]);
    if (place > first + 1 && sum <= AS_LONG * lengths.get(track)) lengths.delete(track);
  }
});

// The nearest reached station that was not yet expanded.
const nearest = reached => {
  let best = null;
  for (const each of reached.values()) if (!each.isLeft && (!best || each.minutes < best.minutes)) best = each;
  return best;
};

// The stations of the shortest route, including its ends, that avoids some others; null if there is none.
export const routeBetween = (neighbours, start, end, passed) => {
  const reached = new Map([[start, { station: start, minutes: 0, before: null, isLeft: false }]]);
  for (let at = nearest(reached); at && at.station !== end; at = nearest(reached)) {
    at.isLeft = true;
    for (const { station, length } of neighbours.get(at.station) || []) {
      const minutes = at.minutes + length, known = reached.get(station);
      if (!passed.has(station) && !(known && known.minutes <= minutes)) reached.set(station, { station, minutes, before: at, isLeft: false });
    }
  }
  const route = [];
  for (let at = reached.get(end); at; at = at.before) route.unshift(at.station);
  return route.length ? { stations: route, minutes: reached.get(end).minutes } : null;
};
