// The places of things in a drawing: texts, which may be rotated, and points beside a path.

// The share of its length that is before the anchor of a text.
export const PARTS = { start: 0, middle: 0.5, end: 1 };

// The distance between the spots that are tried for a text, and the least distance to another text.
const EVERY = 6, NEAR = 12;

// Spots along a text of some length, from its first letter to its last, in a frame with its origin and turn.
export const spotsOf = ({ x, y, 'text-anchor': anchor }, { origin, turn }, length) => {
  const first = x - length * PARTS[anchor], [across, down] = [Math.cos(turn), Math.sin(turn)], count = Math.ceil(length / EVERY);
  return [...Array(count + 1).keys()].map(each => first + length * each / count)
    .map(along => [origin[0] + along * across - y * down, origin[1] + along * down + y * across]);
};

export const isApart = (spots, taken) => !spots.some(([x, y]) => taken.some(other => Math.hypot(x - other[0], y - other[1]) < NEAR));

/** The distance of a spot from the straight line between two places.
 * @param {number[]} spot
 * @param {number[]} start
 * @param {number[]} end */
export const beside = ([x, y], start, end) => {
  const length = Math.hypot(end[0] - start[0], end[1] - start[1]) || 1e-9, along = [(end[0] - start[0]) / length, (end[1] - start[1]) / length];
  const at = Math.min(length, Math.max(0, (x - start[0]) * along[0] + (y - start[1]) * along[1]));
  return Math.hypot(x - start[0] - along[0] * at, y - start[1] - along[1] * at);
};
