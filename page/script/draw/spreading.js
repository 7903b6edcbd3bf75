// Spreads places over a drawing, so that there is room for stations and for numbers along tracks.

const MOST_ROUNDS = 300, MOST_LOOKS = 2000000, SHARE = 0.3, CLEARANCE = 26, FAN_REACH = 45;

// Places in the units of a drawing, near the given ones, with room for numbers, computed in steps.
//   places: the place of each station in any unit, y downwards; tracks: {one, other, along, beside} with the room that each
//   needs along it and to each side; radius: of each station; size: width and height, which grow if stations need it.
export const spread = function* (places, tracks, radius, size) {
  const spreading = start(fitted(places, size), tracks, radius);
  const looks = places.size * (places.size / 2 + tracks.length) + 1;
  const rounds = Math.min(MOST_ROUNDS, Math.floor(MOST_LOOKS / looks) + 5);
  for (let round = 0; round < rounds && (yield* step(spreading)); round += 1);
  return spreading.places;
};

// The distances of numbers from the least, as shares of a length; `half` of it is given, so that nothing overflows.
const sharesOf = (numbers, least, half) => numbers.map(each => half ? (each / 2 - least / 2) / half : 0);

// The places at a scale at which they fit into a size, stretched by up to a half one way if that fills it. They are first divided
// by the longer side, so that no value is too large or too small.
const fitted = (places, [width, height]) => {
  const axes = [0, 1].map(axis => [...places.values()].map(place => place[axis])), leasts = axes.map(numbers => Math.min(...numbers));
  const halves = axes.map((numbers, axis) => Math.max(...numbers) / 2 - leasts[axis] / 2), longer = Math.max(...halves);
  const [xs, ys] = axes.map((numbers, axis) => sharesOf(numbers, leasts[axis], longer)), [wide, high] = [xs, ys].map(shares => Math.max(...shares));
  let across = wide ? width / wide : 1, down = high ? height / high : 1;
  const scale = Math.min(wide ? across : down, high ? down : across);
  [across, down] = [across, down].map(each => Math.min(each, 1.5 * scale));
  // Stations at one place, or on one line, are separated by their order.
  return new Map([...places.keys()].map((name, place) => [name, [xs[place] * across + place * 0.01, ys[place] * down + place * 0.01]]));
};

const start = (places, tracks, radius) => {
  const names = [...places.keys()], ends = new Map(names.map(name => [name, []])), rooms = new Map(names.map(name => [name, new Map()]));
  for (const { one, other, along, beside } of tracks) {
    ends.get(one).push([other, beside]);
    ends.get(other).push([one, beside]);
    rooms.get(one).set(other, along);
    rooms.get(other).set(one, along);
  }
  return { places, tracks, radius, names, ends, rooms, isMoved: false };
};

const move = (spreading, station, x, y, length) => {
  const here = spreading.places.get(station);
  spreading.places.set(station, [here[0] + x * length, here[1] + y * length]);
  spreading.isMoved = true;
};

// Reduces each lack of room by a part; false if there was none.
const step = function* (spreading) {
  const { names, tracks, radius, rooms, ends } = spreading;
  spreading.isMoved = false;
  for (const [place, one] of names.entries()) {
    for (const other of names.slice(place + 1)) {
      const room = rooms.get(one).get(other);
      push(spreading, one, other, radius.get(one) + radius.get(other) + (room === undefined ? 2 * CLEARANCE : room));
    }
    yield;
  }
  for (const track of tracks) {
    for (const station of names) if (station !== track.one && station !== track.other) clear(spreading, station, track);
    yield;
  }
  names.forEach(station => {
    ends.get(station).forEach((one, place, all) => all.slice(place + 1).forEach(other => fan(spreading, station, one, other)));
  });
  return spreading.isMoved;
};

// Moves two stations apart that are nearer than needed.
const push = (spreading, one, other, wanted) => {
  const [x, y] = spreading.places.get(one), [otherX, otherY] = spreading.places.get(other), apart = Math.hypot(otherX - x, otherY - y);
  if (apart >= wanted - 0.5) return;
  const along = apart > 1e-6 ? [(otherX - x) / apart, (otherY - y) / apart] : [1, 0];
  move(spreading, other, along[0], along[1], SHARE * (wanted - apart));
  move(spreading, one, -along[0], -along[1], SHARE * (wanted - apart));
};

// Moves a station away from a track that passes too near, and the track's ends slightly the other way.
const clear = (spreading, station, track) => {
  const here = spreading.places.get(station), begin = spreading.places.get(track.one), end = spreading.places.get(track.other);
  const length = Math.hypot(end[0] - begin[0], end[1] - begin[1]);
  if (length < 1e-6) return;
  const along = [(end[0] - begin[0]) / length, (end[1] - begin[1]) / length];
  const at = (here[0] - begin[0]) * along[0] + (here[1] - begin[1]) * along[1];
  const beside = (here[1] - begin[1]) * along[0] - (here[0] - begin[0]) * along[1];
  const lack = spreading.radius.get(station) + track.beside + CLEARANCE - Math.abs(beside), side = beside >= 0 ? 1 : -1;
  if (at <= 0 || at >= length || lack <= 0.5) return;
  move(spreading, station, -along[1] * side, along[0] * side, SHARE * lack);
  for (const name of [track.one, track.other]) move(spreading, name, along[1] * side, -along[0] * side, SHARE * lack / 2);
};

// Rotates two tracks at a station apart whose numbers would overlap, each with its room beside.
const fan = (spreading, station, [one, oneBeside], [other, otherBeside]) => {
  const here = spreading.places.get(station);
  const [from, to] = [one, other].map(name => spreading.places.get(name)).map(([x, y]) => [x - here[0], y - here[1]]);
  const turn = angleBetween(Math.atan2(from[1], from[0]), Math.atan2(to[1], to[0]));
  const wanted = Math.asin(Math.min(1, (oneBeside + otherBeside) / (spreading.radius.get(station) + FAN_REACH)));
  const lack = Math.min(wanted, 0.8 * 2 * Math.PI / spreading.ends.get(station).length) - Math.abs(turn);
  if (lack <= 0.02) return;
  const side = (turn >= 0 ? SHARE : -SHARE) * lack / 2;
  move(spreading, one, from[1], -from[0], side);
  move(spreading, other, -to[1], to[0], side);
};

// The rotation from one angle to another, from minus half a turn to half a turn.
export const angleBetween = (from, to) => {
  const turn = (to - from) % (2 * Math.PI);
  return turn > Math.PI ? turn - 2 * Math.PI : turn < -Math.PI ? turn + 2 * Math.PI : turn;
};
