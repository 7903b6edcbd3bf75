// The places of stations on a netgraph: those of a file of places, or a layout from the lengths of tracks (stress majorization).

// Unconnected parts are in rows, together about RATIO times as wide as high.
const MOST_ROUNDS = 200, MOST_MOVES = 600000, RATIO = 2;

// Places at which the distances of stations are about the lengths of the paths between them, computed in steps; unconnected parts are
// beside each other.
export const layOut = function* (stations, lengths) {
  const apart = yield* distances(stations, lengths), all = [...lengths.values()], laid = new Map(), layouts = [];
  for (const part of partsOf(apart)) {
    const places = yield* layOutPart(part.map(one => part.map(other => apart[one][other])));
    layouts.push(places);
    part.forEach((station, place) => laid.set(stations[station], places[place]));
  }
  inRows(layouts, all.reduce((sum, length) => sum + length, 1) / (all.length + 1));
  return new Map(stations.map(station => [station, laid.get(station)]));
};

// The stations of each part.
const partsOf = apart => apart.map(row => [...row.keys()].filter(each => row[each] < Infinity)).filter(([first], station) => first === station);

const layOutPart = function* (apart) {
  const places = firstPlaces(apart), rounds = Math.min(MOST_ROUNDS, Math.floor(MOST_MOVES / apart.length ** 2) + 5);
  for (let round = 0; round < rounds; round += 1) {
    places.forEach((_, station) => { places[station] = wanted(station, places, apart[station]); });
    yield;
  }
  return level(places);
};

const boxOf = places => [0, 1].map(axis => {
  const all = places.map(place => place[axis]), least = Math.min(...all);
  return { least, size: Math.max(...all) - least };
});

// Moves the layouts of parts into rows, the highest first, with some room between them.
const inRows = (layouts, room) => {
  const boxed = layouts.map(places => ({ places, box: boxOf(places) })).sort((one, other) => other.box[1].size - one.box[1].size);
  const widest = Math.sqrt(RATIO * boxed.reduce((sum, { box: [across, down] }) => sum + (across.size + room) * (down.size + room), 0));
  let [x, y, high] = [0, 0, 0];
  for (const { places, box: [across, down] } of boxed) {
    if (x + across.size > widest) [x, y, high] = [0, y + high, 0];
    for (const place of places) [place[0], place[1]] = [place[0] + x - across.least, place[1] + y - down.least];
    [x, high] = [x + across.size + room, Math.max(high, down.size + room)];
  }
};

// The lengths of shortest paths over tracks between these stations, infinite if there is none.
const distances = function* (stations, lengths) {
  const apart = stations.map((_, one) => stations.map((__, other) => one === other ? 0 : Infinity));
  const places = new Map(stations.map((station, place) => [station, place]));
  for (const [track, length] of lengths) {
    const [one, other] = JSON.parse(track).map(station => places.get(station));
    if (one === undefined || other === undefined) continue;
    apart[one][other] = apart[other][one] = Math.min(apart[one][other], length);
  }
  for (const [middle, reached] of apart.entries()) {
    for (const row of apart) {
      const reach = row[middle];
      if (reach < Infinity) reached.forEach((length, last) => { row[last] = Math.min(row[last], reach + length); });
    }
    yield;
  }
  return apart;
};

const farthest = (count, far) => [...Array(count).keys()].reduce((best, each) => far(each) > far(best) ? each : best, 0);

// A first layout, by the distances from two ends of the network and from a station far from both.
const firstPlaces = apart => {
  const west = farthest(apart.length, each => apart[0][each]), east = farthest(apart.length, each => apart[west][each]);
  const north = farthest(apart.length, each => Math.min(apart[west][each], apart[east][each]));
  // The small shift separates two stations that are equally far from all three.
  return apart.map((_, each) => [(apart[west][each] - apart[east][each]) / 2 + each * 1e-3, apart[north][each] + (each % 7) * 1e-3]);
};

// The place that the other stations suggest for a station, near ones with the most weight.
const wanted = (station, places, apart) => {
  const [x, y] = places[station];
  let [sumX, sumY, sum] = [0, 0, 0];
  apart.forEach((length, other) => {
    if (other === station || length === 0) return;
    const [otherX, otherY] = places[other], weight = length ** -2, now = Math.hypot(x - otherX, y - otherY) || 1e-9;
    sumX += weight * (otherX + length * (x - otherX) / now);
    sumY += weight * (otherY + length * (y - otherY) / now);
    sum += weight;
  });
  return sum ? [sumX / sum, sumY / sum] : [x, y];
};

// The same layout about its middle, rotated so that it is widest from west to east.
const level = places => {
  const count = places.length, middle = [0, 1].map(axis => places.reduce((sum, place) => sum + place[axis], 0) / count);
  const moved = places.map(([x, y]) => [x - middle[0], y - middle[1]]);
  const across = moved.reduce((sum, [x, y]) => sum + 2 * x * y, 0), along = moved.reduce((sum, [x, y]) => sum + x * x - y * y, 0);
  const turn = -Math.atan2(across, along) / 2, cosine = Math.cos(turn), sine = Math.sin(turn);
  return moved.map(([x, y]) => [x * cosine - y * sine, x * sine + y * cosine]);
};
