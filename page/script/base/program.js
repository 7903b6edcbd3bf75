// The program in the page: whole runs over bytes, which keep nothing, and sessions. `PespModule` is page/module.js.

// The status of a call that is out of memory; a newly opened session may have more.
const MEMORY = [5, 6];
const decoder = new TextDecoder();

// The compiled module, and its running instance; null if the last one trapped, which is not used again.
let program = null, module = null;

// Starts the compiled module, here or in a Worker.
export const startProgram = async compiled => {
  module = await PespModule.start(compiled);
  program = compiled;
};

export const programNow = () => program;

const moduleNow = () => {
  module = module || PespModule.startNow(program);
  return module;
};

const called = (owner, call) => {
  try {
    if (module !== owner) throw new Error('it is not used again');
    return call(owner);
  } catch (trap) {
    if (module === owner) module = null;
    return { output: new Uint8Array(0), session: null, ending: { status: 0 }, fault: `the module was trapped: ${trap.message}` };
  }
};

export const answer = run => {
  const { output, ending, fault } = called(moduleNow(), each => PespModule.answer(each, run));
  return { output: decoder.decode(output), fault, isWanting: MEMORY.includes(ending.status) };
};

// A session of files, with a fault or '': it answers lines until it is closed, returns results of searches in numbers, and
// domains if the module does.
export const openFiles = files => {
  const owner = moduleNow(), { session, fault } = called(owner, each => PespModule.open(each, files));
  const inSession = call => {
    const { ending, fault: why, ...more } = called(owner, call);
    return { ...more, fault: why, isWanting: MEMORY.includes(ending.status) };
  };
  const ask = line => {
    const { output, ...more } = inSession(each => PespModule.ask(each, session, line));
    return { text: decoder.decode(output), ...more };
  };
  const domains = PespModule.canTellDomains(owner) ? (...of) => inSession(each => PespModule.domains(each, session, ...of)) : null;
  const search = nodes => inSession(each => PespModule.search(each, session, nodes));
  return { fault, ask, domains, search, close: () => called(owner, each => PespModule.close(each, session)) };
};
