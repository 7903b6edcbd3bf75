// Workers, each with a program of its own.

import { programNow } from './program.js';

// Starts one, with a listener for its answers and faults. It has the modules of worker.js, which tools/page combines in a script
// of their own, the caller of the program and the program.
export const startWorker = hear => {
  const modules = document.querySelector('script[data-modules=worker]').textContent;
  const text = new Blob(["'use strict';\n", PespModule.text, modules], { type: 'text/javascript' }), address = URL.createObjectURL(text);
  const worker = new Worker(address);
  URL.revokeObjectURL(address);
  worker.addEventListener('message', event => hear(event.data));
  worker.addEventListener('error', event => hear({ fault: event.message, isDone: true }));
  worker.postMessage({ program: programNow() });
  return worker;
};

// A Worker that starts at its first question. A new question ends the previous one at its next step, and no later answer to that
// is heard.
export const soleWorker = () => {
  let worker = null, asked = null;
  const hear = answer => {
    if (!asked || (answer.id !== undefined && answer.id !== asked.id)) return;
    const { tell } = asked;
    if (answer.isDone) asked = null;
    tell(answer);
  };
  const leave = () => {
    if (asked) worker.postMessage({ kind: 'rest' });
    asked = null;
  };
  const ask = (question, tell) => {
    worker = worker || startWorker(hear);
    asked = { id: performance.now(), of: question, tell };
    worker.postMessage({ ...question, id: asked.id });
  };
  const end = () => {
    if (worker) worker.terminate();
    [worker, asked] = [null, null];
  };
  return { ask, leave, end, of: () => asked && asked.of };
};
