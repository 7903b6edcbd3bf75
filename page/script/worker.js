// The tasks of a Worker, so that the page stays usable: searches, why there is no timetable, what would help, what minutes cost,
// and long files of lines.

import { MOST_BYTES } from './files/archive.js';
import { boundingOf } from './search/bounding.js';
import { findWhy } from './search/conflict.js';
import { convert } from './files/converting.js';
import { sourceOfBlob } from './files/decoding.js';
import { tellRest } from './search/hand.js';
import { tellNearest } from './search/nearest.js';
import { baseOf, readNetwork } from './base/network.js';
import { FIRST_NODES, paced } from './search/pacing.js';
import { tellPrices } from './search/pricing.js';
import { canPrime, sessionFrom } from './search/priming.js';
import { startProgram } from './base/program.js';
import { isSure } from './base/replies.js';
import { openFirst, openSession } from './base/running.js';
import { tellGains } from './search/widening.js';

// The session of the last network, by its mark; whether its search has started; the nodes of the next step; and what bounds it by
// parts. It stays open, so that a stopped search can be resumed.
const NOTHING = { mark: null, session: null, isBegun: false, step: FIRST_NODES, bounding: null };
let kept = NOTHING;

const opened = ({ base, lines }) => openSession(base, [...base.setup, ...lines]);

const sessionOf = asked => {
  if (kept.mark === asked.mark) return kept.session;
  close();
  kept = { ...NOTHING, mark: asked.mark, session: opened(asked) };
  return kept.session;
};

const close = () => {
  if (kept.session) kept.session.close();
  if (kept.bounding) kept.bounding.close();
  kept = NOTHING;
};

// The same, with a search that starts with the best known timetable, if it has not started.
const searchedFor = asked => {
  const session = sessionOf(asked), { best } = asked;
  if (!kept.isBegun && best && canPrime(best.times)) {
    const primed = sessionFrom(session.ask('dump'), best.times);
    session.close();
    kept = { ...kept, session: primed };
  }
  kept = { ...kept, isBegun: true };
  return kept.session;
};

// The result of a step of at most this many nodes, and how many it had.
const stepOf = (session, most, events) => {
  const nodes = Math.min(kept.step, most), from = performance.now(), found = session.search(nodes, events);
  const took = performance.now() - from, step = nodes === kept.step ? paced(nodes, took, found.goesOn) : kept.step;
  kept = { ...kept, step };
  return { found, took, nodes };
};

// Messages that arrived meanwhile are handled first.
const hear = () => new Promise(done => { setTimeout(done); });

const boundingNow = session => {
  kept.bounding = kept.bounding || boundingOf(readNetwork(session.ask('dump')));
  return kept.bounding;
};

// Continues with `most` nodes, or until another task arrives. If the program returns no bound, because the network is too large
// for its search by cycles, parts of it are searched for one for as long as the step took.
const search = async (asked, tell, isLeft) => {
  const session = searchedFor(asked), { most, events } = asked;
  for (let gone = 0, isDone = false; !isDone && !isLeft();) {
    const { found, took, nodes } = stepOf(session, most - gone, events), until = performance.now() + took;
    gone += nodes;
    isDone = isSure(found) || gone === most;
    for (let result = found; result; result = isDone || found.bound || isLeft() || performance.now() > until ? null : boundingNow(session).goOn(found)) {
      isDone = isDone || isSure(result);
      tell({ found: result, nodes: gone, isDone });
      await hear();
    }
  }
};

// With some events held at minutes, in addition to their windows.
const why = (asked, tell) => {
  const network = networkOf(asked);
  for (const [event, first] of asked.held) network.windows.set(event, { first, length: 1 });
  tell({ why: findWhy(network, { kept: new Set(asked.members), canLower: asked.canLower, violated: asked.violated }), isDone: true });
};

// The state of a base, as another one without lines.
const play = ({ played }, tell) => {
  close();
  const { session, network, times } = openFirst(played);
  session.close();
  tell({ base: baseOf(network, times), isDone: true });
};

// This many bytes go to a blob at once, which the browser keeps outside of the page.
const OF_A_BLOB = 1 << 22;

// A long file in converted form, and the remarks on that.
const convertedFile = ({ kind, blob }) => {
  const encoder = new TextEncoder(), blobs = [];
  let length = 0, waiting = 0, chunks = [];
  const notes = convert(kind, sourceOfBlob(blob), text => {
    const bytes = encoder.encode(text);
    [length, waiting] = [length + bytes.length, waiting + bytes.length];
    if (length > MOST_BYTES) throw new Error(`${kind} file is too long: converted it has more than ${MOST_BYTES.toLocaleString('en')} bytes`);
    chunks.push(bytes);
    if (waiting < OF_A_BLOB) return;
    blobs.push(new Blob(chunks));
    [waiting, chunks] = [0, []];
  });
  return { blob: new Blob([...blobs, ...chunks]), notes };
};

const convertFiles = ({ files }, tell) => tell({ converted: files.map(convertedFile), isDone: true });

// The best timetable of the unchanged network, and then with each of some spans wider.
const gains = (asked, tell) => tellGains(sessionOf(asked).ask('dump'), asked, tell);

// The session for a task that does not search the previous network.
const sessionToLeave = asked => {
  const session = sessionOf(asked);
  kept = { ...kept, isBegun: false };
  return session;
};

const prices = (asked, tell, isLeft) => tellPrices(sessionToLeave(asked), asked, tell, { isLeft, hear });

const networkOf = asked => readNetwork(sessionOf(asked).ask('dump'));

const near = (asked, tell, isLeft) => tellNearest(networkOf(asked), asked, tell, { isLeft, hear });

const hand = (asked, tell, isLeft) => tellRest(sessionToLeave(asked), networkOf(asked), asked, tell, { isLeft, hear });

// Replaces a search that is stopped.
const rest = () => {};

const WORK = { search, why, convert: convertFiles, play, gains, prices, near, hand, rest };

// Does a task; `tell` is called with each answer, and `isLeft` says whether another task has arrived.
const work = async (asked, tell, isLeft) => {
  try {
    await WORK[asked.kind](asked, tell, isLeft);
  } catch (fault) {
    close();
    tell({ fault: String(fault.message || fault), refused: fault.refused, isDone: true });
  }
};

// Waits for the program, and for tasks; of those that arrive before the program has started, or during another one, the last is
// done then.
const listen = () => {
  let waiting = null, isReady = false, isAtWork = false;
  const workOn = async () => {
    isAtWork = true;
    while (waiting) {
      const given = waiting;
      waiting = null;
      await work(given, answer => self.postMessage({ ...answer, id: given.id }), () => Boolean(waiting));
    }
    isAtWork = false;
  };
  self.addEventListener('message', async ({ data }) => {
    if (data.kind) waiting = data;
    else {
      await startProgram(data.program);
      isReady = true;
    }
    if (isReady && !isAtWork) workOn();
  });
};

// In the page this is only the text that is sent there.
if (typeof document === 'undefined') listen();
