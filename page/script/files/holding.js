// Which page of this browser holds a name, so that no two write the same draft. If a browser has no locks, no page holds any.

const hasLocks = () => 'locks' in navigator;

// Holds a name, and returns the function that releases it; null if another page holds it, or without locks.
export const takeHold = name => new Promise(done => {
  if (!hasLocks()) return done(null);
  const refused = () => done(null);
  return navigator.locks.request(name, { ifAvailable: true }, lock => lock && new Promise(letGo => { done(letGo); })).then(refused, refused);
});

// The names held by any page.
export const namesHeld = async () => {
  try {
    return new Set(hasLocks() ? (await navigator.locks.query()).held.map(({ name }) => name) : []);
  } catch (refusal) {
    return new Set();
  }
};

// Waits until no page holds a name.
export const untilFree = name => navigator.locks.request(name, () => {});
