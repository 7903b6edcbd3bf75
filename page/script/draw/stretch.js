// The part of a line that its diagram draws: all of it, or, if it is too long, the stations around the chosen event.

import { labelOf } from '../session/names.js';
import { piecesWhere } from '../session/trains.js';

const MOST_STRETCH = 120;
// With this many stops of trains all stations of a line are drawn.
const MOST_STOPS = 5000;

// With more stations than this not all are drawn, in a diagram or in a netgraph.
export const MOST_STATIONS = 349;

// The pieces of a train within some stations, each as a train.
export const piecesOf = (train, stations) => piecesWhere(train, event => stations.has(labelOf(event).station));

const isSmall = ({ stations, trains }) => stations.length <= MOST_STRETCH
  || (stations.length <= MOST_STATIONS && trains.reduce((sum, { events }) => sum + events.length, 0) <= MOST_STOPS);

// The line, with the remark on what is left out.
export const stretchOf = (line, chosen) => {
  const { stations } = line;
  if (isSmall(line)) return { line, note: '' };
  const middle = Math.max(0, stations.indexOf(labelOf(chosen).station));
  const first = Math.min(Math.max(0, middle - MOST_STRETCH / 2), stations.length - MOST_STRETCH);
  const kept = stations.slice(first, first + MOST_STRETCH), known = new Set(kept);
  const note = `Elided: of ${stations.length.toLocaleString('en')} stations the ${MOST_STRETCH} about ${stations[middle]} are shown.`;
  return { line: { ...line, stations: kept, trains: line.trains.flatMap(train => piecesOf(train, known)) }, note };
};
