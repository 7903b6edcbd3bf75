// The page's tasks for a Worker, one at a time, so that it stays usable: searches, why there is none, what would help, and long
// files of lines. A search is stopped between two steps of the Worker, which keeps it to be resumed; everything else by ending
// the Worker.

import { find, lead, say } from '../base/elements.js';
import { RunFault } from '../base/running.js';
import { markNow, present, stepNow } from '../session/session.js';
import { startWorker } from '../base/workers.js';

const WORDS = {
  search: { busy: 'Searching …', stopped: 'the search was stopped', left: 'the search has ended with it' },
  why: { busy: 'Looking for what cannot be met together …', stopped: 'stopped', left: 'the search for a conflict has ended with it' },
  gains: { busy: 'Asking what would help …', stopped: 'stopped; what was found is listed', left: 'asking what would help has ended with it' },
  near: { busy: 'Looking for the nearest timetable …', stopped: 'stopped', left: 'mending has ended with it' },
  convert: { busy: 'Reading the files …', stopped: 'the opening was stopped, and nothing has changed', left: 'the opening has ended with it' },
  play: { busy: 'Doing the commands …', stopped: 'the opening was stopped, and nothing has changed', left: 'the opening has ended with it' },
};
const TICK = 1000;
// Tasks about files, and not about the network shown; their result replaces it.
const OF_FILES = ['convert', 'play'];

// `asked` is the Worker's present task, the step `from` which it runs, its listener, and what had the focus when it started; null
// if there is none.
let worker = null, asked = null, clock = null;

// Called when the Worker's task changes, and each second.
let hear = () => {};

export const hearAsked = listener => { hear = listener; };

// Starts a task about the state shown. `tell` receives each answer, `fail` a fault, and `end` the seconds when nothing more comes.
export const askFor = (question, { tell, fail = fault => say(fault, true), end = () => {} }) => {
  stopAsking();
  worker = worker || startWorker(answered);
  const id = performance.now(), mark = markNow();
  asked = { id, mark, kind: question.kind, from: stepNow(), focused: document.activeElement, tell, fail, end };
  worker.postMessage({ id, mark, ...(OF_FILES.includes(question.kind) ? {} : present()), ...question });
  clock = setInterval(() => hear(), TICK);
  hear();
  lead(find('stop'));
};

const endWorker = () => {
  worker.terminate();
  worker = null;
};

// Ends the Worker's task at once: no more is heard of its present step.
export const stopAsking = () => {
  if (!asked) return;
  if (asked.kind === 'search') worker.postMessage({ kind: 'rest' });
  else endWorker();
  ended();
};

const seconds = () => (performance.now() - asked.id) / 1000;

const ended = () => {
  const { end, focused } = asked, took = seconds();
  asked = null;
  clearInterval(clock);
  hear();
  end(took);
  lead(focused);
};

const answered = answer => {
  if (!asked || (answer.id !== undefined && answer.id !== asked.id)) return;
  const { tell, fail } = asked;
  if (answer.fault) fail(answer.fault, answer.refused);
  else tell(answer);
  if (answer.isDone && asked) ended();
  else hear();
};

// The Worker's task, and its seconds; null if there is none.
export const askedNow = () => asked && { kind: asked.kind, busy: WORDS[asked.kind].busy, seconds: seconds() };

// Opened files replace whatever is shown, so any step ends such a task.
const isIdle = () => OF_FILES.includes(asked.kind) ? asked.from !== stepNow() : asked.mark !== markNow();

// Ends a task about a network that is no longer shown, and reports it; '' if there is none.
export const leaveAsked = () => {
  if (!asked || !isIdle()) return '';
  const { left } = WORDS[asked.kind];
  stopAsking();
  return left;
};

// The Worker's result from files, as one member of its answer; null if it was stopped. Rejected with RunFault.
const made = (question, member) => new Promise((done, fail) => {
  askFor(question, { tell: answer => done(answer[member]), fail: (fault, refused) => fail(new RunFault(fault, false, refused)), end: () => done(null) });
});

// The state of a base, as another base without lines.
export const play = played => made({ kind: 'play', played }, 'base');

// Long files of some kinds, each converted, with the remarks on that. The Worker ends with it, which frees its memory.
export const convertLong = async files => {
  const converted = await made({ kind: 'convert', files }, 'converted');
  if (worker && !asked) endWorker();
  return converted;
};

// A task that has ended meanwhile cannot be stopped.
export const startAsking = () => find('stop').addEventListener('click', () => {
  if (!asked) return;
  const { stopped } = WORDS[asked.kind];
  stopAsking();
  say(stopped);
});
