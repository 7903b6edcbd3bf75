// The corridor: chosen stations, and those on the shortest routes between them.

import { display } from '../session/display.js';
import { say } from '../base/elements.js';
import { neighboursOf, routeBetween } from './routes.js';
import { redraw } from '../session/session.js';

let kept = { chosen: [], stations: [], gaps: [] };

// The same, read-only: the chosen ones, all of them, and the pairs without a route between them.
export const corridor = Object.freeze({
  get chosen() { return kept.chosen; },
  get stations() { return kept.stations; },
  get gaps() { return kept.gaps; },
});

// The routes from each chosen station to the next one; a station is there once. Without a route there is a gap.
const follow = (chosen, neighbours) => {
  const stations = chosen.slice(0, 1), gaps = [];
  chosen.slice(1).forEach((station, place) => {
    if (stations.includes(station)) return;
    const route = routeBetween(neighbours, chosen[place], station, new Set(stations.filter(each => each !== chosen[place])));
    if (!route) gaps.push([chosen[place], station]);
    stations.push(...route ? route.stations.slice(1) : [station]);
  });
  return { stations, gaps };
};

const set = chosen => {
  kept = { chosen, ...follow(chosen, chosen.length > 1 && neighboursOf(display.view)) };
};

// Adds a station at the end to which its route is shorter.
const added = station => {
  const { chosen } = kept, neighbours = neighboursOf(display.view);
  const minutes = [chosen[0], chosen[chosen.length - 1]].map(end => {
    const route = routeBetween(neighbours, end, station, new Set());
    return route ? route.minutes : Infinity;
  });
  return chosen.length > 1 && minutes[0] < minutes[1] ? [station, ...chosen] : [...chosen, station];
};

export const chooseCorridor = chosen => {
  set(chosen);
  say(`The corridor: ${kept.stations.join(' – ') || 'none'}`);
  redraw();
};

// Adds a station, or removes a chosen one.
export const switchStation = station => {
  const { chosen, stations } = kept;
  if (chosen.includes(station)) chooseCorridor(chosen.filter(each => each !== station));
  else if (stations.includes(station)) say(`${station} is in the corridor, between those chosen.`);
  else chooseCorridor(added(station));
};

// In another network the stations that exist there too stay.
export const corridorPanel = {
  build: view => {
    const known = new Set(view.lines.flatMap(line => line.stations));
    set(kept.chosen.filter(station => known.has(station)));
  },
  update: () => {},
};
