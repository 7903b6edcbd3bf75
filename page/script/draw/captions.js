// The places of station names on a netgraph.

import { beside } from './apart.js';

// The height of a name, its most letters, the distance between the lines of a track, the room that is enough, and the distance
// from its ring within which something takes its room.
export const NAME = 14.5;
export const LETTERS = 24;
export const LINE_STEP = 29;
const ENOUGH = 16, FAR = 0.7 * NAME * LETTERS + 3 * NAME + ENOUGH;

// The least distance of a name from the middle of a track.
const halfOf = track => (track.trackLines.length - 1) * LINE_STEP / 2 + NAME;

// The things near a station that may take the room of its name.
const aboutOf = ({ places, radius, tracks }, station) => {
  const here = places.get(station), reach = radius.get(station) + FAR;
  return {
    tracks: tracks.filter(track => beside(here, places.get(track.one), places.get(track.other)) < reach + halfOf(track)),
    places: [...places].filter(([other, place]) => beside(place, here, here) < reach + radius.get(other)),
  };
};

// The place of a name around its ring with the most room; among equally readable ones the first.
export const labelPlace = (graph, station) => {
  const [x, y] = graph.places.get(station), reach = graph.radius.get(station) + 6, about = aboutOf(graph, station);
  let best = null;
  for (const turn of [6, 2, 0, 4, 5, 7, 1, 3, 5.5, 6.5, 0.5, 7.5, 1.5, 2.5, 3.5, 4.5]) {
    const across = Math.cos(turn * Math.PI / 4), down = Math.sin(turn * Math.PI / 4);
    const anchor = Math.abs(across) < 0.5 ? 'middle' : across > 0 ? 'start' : 'end';
    const place = { x: x + across * reach, base: y + down * (reach + NAME / 2) + NAME * 0.36, anchor };
    place.room = roomOf(graph, station, place, about);
    if (!best || place.room > best.room) best = place;
  }
  return best;
};

// The least distance of a name from its surroundings, up to what is enough.
const roomOf = (graph, station, { x, base, anchor }, { tracks, places }) => {
  const [left, right] = spanOfName(station, x, anchor);
  const spots = [0, 1, 2, 3, 4].flatMap(quarter => [0, 0.7].map(height => [left + (right - left) * quarter / 4, base - NAME * height]));
  let room = ENOUGH;
  for (const track of tracks) {
    const half = halfOf(track);
    for (const spot of spots) room = Math.min(room, beside(spot, graph.places.get(track.one), graph.places.get(track.other)) - half);
  }
  for (const [other, [otherX, otherY]] of places) {
    const margin = graph.radius.get(other) - (other === station ? NAME : 0);
    for (const spot of spots) room = Math.min(room, Math.hypot(spot[0] - otherX, spot[1] - otherY) - margin);
  }
  return room;
};

// Approximately where the name of a station begins and ends, from its anchor.
export const spanOfName = (name, x, anchor) => {
  const width = 0.7 * NAME * Math.min(LETTERS, name.length), left = x - width * { start: 0, middle: 0.5, end: 1 }[anchor];
  return [left, left + width];
};
