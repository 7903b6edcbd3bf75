// The nodes of a search's step, so that it takes a number of milliseconds.

const STEP = 250;

export const FIRST_NODES = 1000;

// Doubled if it was much quicker than a step should be, and if the next one restarts; halved if it was much slower.
export const paced = (nodes, took, goesOn) => {
  if (took < STEP / 2 || !goesOn) return 2 * nodes;
  return took > 2 * STEP ? Math.max(1, Math.floor(nodes / 2)) : nodes;
};
