// The part of a network that a netgraph draws: all of it, or, if it is too large, the surroundings of the chosen event.

import { MOST_STATIONS } from './stretch.js';
import { tracksOf } from './tracks.js';

const MOST_NEARBY = 120, MOST_TRACK_LINES = 12;

// The stations of lines, or those fewest tracks away from the first of them, in the order of distance.
const stationsFrom = (start, stations, tracks, most) => {
  const ends = new Map(stations.map(station => [station, []])), reached = new Set();
  for (const { one, other } of tracks) {
    ends.get(one).push(other);
    ends.get(other).push(one);
  }
  for (const seed of [start, ...stations]) {
    const waiting = [seed];
    for (let place = 0; place < waiting.length; place += 1) {
      if (reached.size === most) return [...reached];
      if (reached.has(waiting[place])) continue;
      reached.add(waiting[place]);
      waiting.push(...ends.get(waiting[place]));
    }
  }
  return [...reached];
};

// The stations and tracks to draw, and the remark on what is left out.
export const nearby = (lines, chosen) => {
  const all = tracksOf(lines), stations = [...new Set(lines.flatMap(line => line.stations))];
  const isWhole = stations.length <= MOST_STATIONS, start = stations.includes(chosen) ? chosen : stations[0];
  const drawn = isWhole ? stations : stationsFrom(start, stations, all, MOST_NEARBY), known = new Set(drawn);
  const tracks = all.filter(({ one, other }) => known.has(one) && known.has(other));
  const notes = [
    isWhole ? '' : `Elided: of ${stations.length.toLocaleString('en')} stations the ${MOST_NEARBY} nearest to ${start} are shown.`,
    tracks.some(({ trackLines }) => trackLines.length > MOST_TRACK_LINES) ? `Elided: of the lines between two stations at most ${MOST_TRACK_LINES} are shown.` : '',
  ];
  const cut = tracks.map(track => ({ ...track, trackLines: track.trackLines.slice(0, MOST_TRACK_LINES) }));
  return { stations: drawn, tracks: cut, note: notes.filter(Boolean).join(' ') };
};

// The first of some trains with their places on a line, up to a number of drawn places, and how many places there are.
export const firstRuns = (all, most) => {
  const runs = all.reduce((sum, { places }) => sum + places.length, 0), others = [];
  for (let place = 0, left = most; place < all.length && left > 0; place += 1) {
    others.push({ ...all[place], places: all[place].places.slice(0, left) });
    left -= all[place].places.length;
  }
  return { others, runs };
};
