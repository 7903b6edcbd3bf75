// Long work in slices, between which the page is drawn and handles events.

const SLICE = 10;

// Does all of it now, and returns its result.
export const atOnce = work => {
  let step = work.next();
  while (!step.done) step = work.next();
  return step.value;
};

// Does some milliseconds of it in each frame, and passes its result on; the returned function stops it.
export const inSlices = (work, end) => {
  const go = () => {
    const until = performance.now() + SLICE;
    let step = work.next();
    while (!step.done && performance.now() < until) step = work.next();
    if (step.done) end(step.value);
    else frame = requestAnimationFrame(go);
  };
  let frame = requestAnimationFrame(go);
  return () => cancelAnimationFrame(frame);
};
