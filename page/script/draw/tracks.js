// The tracks of a netgraph between two neighbouring stations, with the lines on each of them and their events at each end.

import { trackOf } from './frames.js';

// For each track its two ends, in the order of their names, and its lines.
export const tracksOf = lines => {
  const tracks = new Map();
  for (const line of lines) {
    for (const { stops } of line.trains) stops.slice(1).forEach((stop, place) => addRun(tracks, line, stops[place], stop));
  }
  return [...tracks.values()];
};

const addRun = (tracks, line, before, after) => {
  const name = trackOf(before.station, after.station), [one, other] = JSON.parse(name);
  if (one === other) return;
  if (!tracks.has(name)) tracks.set(name, { one, other, trackLines: [] });
  const { trackLines } = tracks.get(name);
  if (!trackLines.length || trackLines[trackLines.length - 1].line !== line) trackLines.push({ line, leaving: new Map(), arriving: new Map() });
  const trackLine = trackLines[trackLines.length - 1];
  if (before.departure !== null) add(trackLine.leaving, before.station, before.departure);
  if (after.arrival !== null) add(trackLine.arriving, after.station, after.arrival);
};

const add = (events, station, event) => events.set(station, [...events.get(station) || [], event]);

// The most numbers in a row at an end of some lines.
export const mostNumbers = trackLines => {
  const rows = trackLines.flatMap(trackLine => [...trackLine.leaving.values(), ...trackLine.arriving.values()]);
  return Math.max(1, ...rows.map(events => events.length));
};
