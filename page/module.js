'use strict';

// The program in JavaScript: in a page, in a Worker and in Node. A run is complete, over the bytes of three files and of commands,
// and keeps nothing; a session is opened from files, and answers one line after another until it is closed.
//
//   const module = await PespModule.start(program);
//   const { output, ending, fault } = PespModule.answer(module, { period, activities, fixed, times, commands });
//   const { session, ending, fault } = PespModule.open(module, { period, activities, fixed, times });
//   const { output, ending, fault } = PespModule.ask(module, session, 'fix 1 0');
//   const { cost, ending, fault } = PespModule.cost(module, session);
//   const { bits, ending, fault } = PespModule.domains(module, session, [1, 2], 10);
//   const { state, cost, lowerBound, goesOn, times, ending, fault } = PespModule.search(module, session, 1000);
//   PespModule.close(module, session);
//
// `program` is the result of PespModule.compile, or the bytes of the module. Files, commands and a line are bytes or text, and
// empty by default. `output` has the replies, as a Uint8Array. `ending` says how the call ended, as embedded/pespbench.h lists
// it: { status, place, reason, field }; its status is 0 if all lines are answered. `fault` is then '', and otherwise the
// program's own text for it, without its name, in which the one line of `ask` is line 1. `session` is null if the files have a
// fault. `cost` is a BigInt; null if an event has no time. `bits` are the domains of events at a period, one after another, each
// in the whole bytes that hold a bit for each time. Each call of a search continues it with this many nodes: `state` is of enum
// pesp_search_state, `cost` and `lowerBound` are BigInts, `goesOn` says whether the next call resumes this one, and `times` is a
// Uint16Array, a time for each event, ascending; empty if it found no timetable. If an instance has trapped, for example because
// its stack was too short, each call throws; its sessions are lost, and `start` or `startNow` makes a new one.
const makePespModule = () => {
  const FILES = ['activities', 'fixed', 'times'];
  const ENDINGS = {
    4: () => 'commands cannot be read',
    5: () => 'out of memory for the replies',
    6: ({ place }) => `out of memory at line ${place}`,
    7: ({ place }) => `line ${place} is longer than 4096 bytes`,
    8: () => 'more than 1000000 lines',
    9: () => 'the period is not 2 to 1440',
    10: () => 'the session is closed',
    12: () => 'a line feed is in the line',
    13: ({ place, reason }) => `refused ${reason} event ${place} has no time`,
  };
  const REASONS = {
    1: () => 'wrong number of fields',
    2: ({ field }) => `field ${field} is not a number`,
    3: ({ field }) => `field ${field} is out of range`,
    4: () => 'weight has a fraction',
    5: () => 'lower bound above upper bound',
    6: () => 'activity number is repeated',
    7: () => 'event is repeated',
    8: () => 'event is not in the instance',
    9: () => 'too many events',
    10: () => 'too many activities',
    11: () => 'out of memory',
  };

  const faultOf = ending => {
    if (ending.status === 0) return '';
    const file = FILES[ending.status - 1];
    return file ? `${file} file, record ${ending.place}: ${REASONS[ending.reason](ending)}` : ENDINGS[ending.status](ending);
  };

  // The number of bytes of a call's report: two numbers of 64 bits, three of 32, and C's padding.
  const TOLD = 32;
  // Those of a session, which has an address of 64 bits and a mark; of a cost, and of a search's result; the first room for a
  // line; and a room that fits each reply to a change, so that no change is repeated.
  const SESSION = 16, COST = 8, FOUND = 24, LINE = 1 << 10, OF_A_CHANGE = 128;
  // No search is repeated either: the times of the greatest number of events fit.
  const LEAST_ROOM = 1 << 20;

  // The digits of numbers of 4 bytes, which have 5 digits each.
  const DIGITS = '0123456789ABCDEFGHIJKLMNOPQRSTUVWXYZabcdefghijklmnopqrstuvwxyz!#,%.()*+-;:=[?@^_]{|}~';

  // The bytes of a text in these digits. The last number may have fewer bytes, and then has one digit more than bytes.
  const bytesOfDigits = text => {
    const values = new Uint8Array(128), length = Math.floor(text.length * 4 / 5), view = new DataView(new ArrayBuffer(length + 4));
    [...DIGITS].forEach((digit, value) => { values[digit.charCodeAt(0)] = value; });
    for (let start = 0, at = 0; start < text.length; start += 5, at += 4) {
      let number = 0;
      for (let place = start; place < start + 5; place += 1) number = number * 85 + (place < text.length ? values[text.charCodeAt(place)] : 84);
      view.setUint32(at, number);
    }
    return new Uint8Array(view.buffer, 0, length);
  };

  // The module that is packed in a page by deflate, compiled: it can be sent to a Worker, which then starts sooner.
  const compile = text => {
    const bytes = new Blob([bytesOfDigits(text)]).stream().pipeThrough(new DecompressionStream('deflate-raw'));
    return WebAssembly.compileStreaming(new Response(bytes, { headers: { 'Content-Type': 'application/wasm' } }));
  };

  const started = instance => ({ calls: instance.exports, room: LEAST_ROOM });

  // The module imports nothing.
  const start = async program => {
    const made = await WebAssembly.instantiate(program, {});
    return started(made.instance || made);
  };

  // The same, synchronously, from the compiled module.
  const startNow = program => started(new WebAssembly.Instance(program, {}));

  // The most bytes of memory that runs may use from now on; if one needs more, its answer says so.
  const limit = (module, bytes) => module.calls.pesp_limit(BigInt(bytes));

  const encoder = new TextEncoder();

  const bytesOf = value => (typeof value === 'string' ? encoder.encode(value) : value || new Uint8Array(0));

  // A block of the module's memory; 0 if there is none. No block is empty, since each needs an address.
  const take = (module, length) => module.calls.pesp_take(BigInt(Math.max(length, 1)));

  const put = (module, block, bytes) => new Uint8Array(module.calls.memory.buffer, Number(block), bytes.length).set(bytes);

  const lend = (module, blocks, bytes) => {
    const block = take(module, bytes.length);
    if (!block) return false;
    blocks.push(block);
    put(module, block, bytes);
    return true;
  };

  const giveBack = (module, blocks) => blocks.forEach(block => module.calls.pesp_give_back(block));

  // The report of a call: the length of the replies, and how the call ended.
  const toldAt = (module, block) => {
    const view = new DataView(module.calls.memory.buffer, Number(block), TOLD), place = Number(view.getBigUint64(8, true));
    const ending = { status: view.getUint32(16, true), place, reason: view.getUint32(20, true), field: view.getUint32(24, true) };
    return { length: Number(view.getBigUint64(0, true)), ending };
  };

  const outputAt = (module, block, length) => new Uint8Array(module.calls.memory.buffer, Number(block), length).slice();

  // The report of one call, and as much of the replies as fits; null if there is no memory for the arguments.
  const call = (module, period, parts, room) => {
    const blocks = [];
    try {
      if (!parts.every(part => lend(module, blocks, part))) return null;
      const lengths = parts.map(part => BigInt(part.length));
      const out = take(module, room), told = out && (blocks.push(out), take(module, TOLD));
      if (!told) return null;
      blocks.push(told);
      module.calls.pesp_answer(period, ...lengths.flatMap((length, place) => [blocks[place], length]), out, BigInt(room), told);
      const { length, ending } = toldAt(module, told);
      return { length, ending, output: outputAt(module, out, Math.min(length, room)) };
    } finally {
      giveBack(module, blocks);
    }
  };

  const ended = status => ({ status, place: 0, reason: 0, field: 0 });

  // A value that is not a number of 16 bits is not a period.
  const wholeOf = period => Number.isInteger(period) && period >= 0 && period < 65536 ? period : 0;

  // A run, repeated with more room if the replies did not fit. Without memory for the arguments it ends as out of
  // memory before the first line; without memory for the room, the replies are those that fitted.
  const answer = (module, { period, activities, fixed, times, commands }) => {
    const parts = [activities, fixed, times, commands].map(bytesOf);
    let came = call(module, wholeOf(period), parts, module.room) || { length: 0, output: new Uint8Array(0), ending: ended(6) };
    if (came.length > came.output.length) {
      const again = call(module, wholeOf(period), parts, came.length);
      if (again) module.room = came.length;
      came = again || { ...came, ending: ended(5) };
    }
    return { output: came.output, ending: came.ending, fault: faultOf(came.ending) };
  };

  // The blocks that a session has until it is closed, each with its bytes; null if there is no memory for them.
  const blocksOfSession = module => {
    const room = Math.max(module.room, OF_A_CHANGE), blocks = [SESSION, TOLD, Math.max(COST, FOUND), LINE, room].map(length => take(module, length));
    if (blocks.every(Boolean)) {
      const [at, told, number, line, out] = blocks;
      // A session of zeros is closed.
      put(module, at, new Uint8Array(SESSION));
      return { at, told, number, line: { block: line, length: LINE }, out: { block: out, length: room } };
    }
    giveBack(module, blocks.filter(Boolean));
    return null;
  };

  const forget = (module, { at, told, number, line, out }) => giveBack(module, [at, told, number, line.block, out.block]);

  // Opens a session from files; out of memory is reported before the first line.
  const open = (module, { period, activities, fixed, times }) => {
    const parts = [activities, fixed, times].map(bytesOf), blocks = [], session = blocksOfSession(module);
    try {
      let ending = ended(6);
      if (session && parts.every(part => lend(module, blocks, part))) {
        const files = parts.flatMap((part, place) => [blocks[place], BigInt(part.length)]);
        module.calls.pesp_open(wholeOf(period), ...files, session.at, session.told);
        ({ ending } = toldAt(module, session.told));
      }
      if (session && ending.status) forget(module, session);
      return { session: ending.status ? null : session, ending, fault: faultOf(ending) };
    } finally {
      giveBack(module, blocks);
    }
  };

  // Whether there is this much room, which replaces a smaller one.
  const isRoom = (module, room, length) => {
    if (length <= room.length) return true;
    const block = take(module, length);
    if (!block) return false;
    module.calls.pesp_give_back(room.block);
    Object.assign(room, { block, length });
    return true;
  };

  const askOnce = (module, { at, told, line, out }, length) => {
    module.calls.pesp_ask(at, line.block, BigInt(length), out.block, BigInt(out.length), told);
    return toldAt(module, told);
  };

  // Sends a line to a session, again with more room if the reply did not fit.
  const ask = (module, session, line) => {
    const bytes = bytesOf(line), { out } = session;
    let came = { length: 0, ending: ended(6) };
    if (isRoom(module, session.line, bytes.length)) {
      put(module, session.line.block, bytes);
      came = askOnce(module, session, bytes.length);
      if (came.length > out.length) came = isRoom(module, out, came.length) ? askOnce(module, session, bytes.length) : { ...came, ending: ended(5) };
    }
    const output = outputAt(module, out.block, Math.min(came.length, out.length));
    return { output, ending: came.ending, fault: faultOf({ ...came.ending, place: 1 }) };
  };

  // The cost of the working timetable.
  const cost = (module, session) => {
    module.calls.pesp_cost(session.at, session.number, session.told);
    const { ending } = toldAt(module, session.told);
    const value = ending.status ? null : new DataView(module.calls.memory.buffer, Number(session.number), COST).getBigUint64(0, true);
    return { cost: value, ending, fault: faultOf(ending) };
  };

  // Whether the module returns domains in bits.
  const canTellDomains = module => Boolean(module.calls.pesp_domain);

  // Writes the domains into a room of this many bytes each, and returns how the last call ended.
  const putDomains = (module, { at, told, out }, events, bytes) => {
    let place = out.block;
    for (const event of events) {
      module.calls.pesp_domain(at, event, place, BigInt(bytes), told);
      const { ending } = toldAt(module, told);
      if (ending.status) return ending;
      place += BigInt(bytes);
    }
    return ended(0);
  };

  // The domains of events; none of them if one is missing.
  const domains = (module, session, events, period) => {
    const { out } = session, bytes = Math.ceil(period / 8), length = bytes * events.length;
    const ending = isRoom(module, out, length) ? putDomains(module, session, events, bytes) : ended(5);
    return { bits: outputAt(module, out.block, ending.status ? 0 : length), ending, fault: faultOf(ending) };
  };

  // Whether the module returns the results of searches in numbers.
  const canSearch = module => Boolean(module.calls.pesp_search);

  const foundAt = (module, block) => {
    const view = new DataView(module.calls.memory.buffer, Number(block), FOUND);
    const goesOn = view.getUint32(20, true) === 1;
    return { state: view.getUint32(16, true), cost: view.getBigUint64(0, true), lowerBound: view.getBigUint64(8, true), goesOn };
  };

  // Searches for the optimum with this many nodes; null if that is not answered.
  const search = (module, session, nodes) => {
    const { at, told, number, out } = session;
    module.calls.pesp_search(at, BigInt(nodes), out.block, BigInt(out.length >> 1), number, told);
    const { length, ending } = toldAt(module, told);
    if (ending.status) return { state: null, cost: null, lowerBound: null, goesOn: null, times: null, ending, fault: faultOf(ending) };
    const times = new Uint16Array(module.calls.memory.buffer, Number(out.block), length).slice();
    return { ...foundAt(module, number), times, ending, fault: '' };
  };

  // Closes a session, which must not be used again.
  const close = (module, session) => {
    module.calls.pesp_close(session.at);
    forget(module, session);
  };

  return { bytesOfDigits, compile, start, startNow, limit, answer, open, ask, cost, canTellDomains, domains, canSearch, search, close, faultOf };
};

const PespModule = makePespModule();

// The source text by which a Worker gets all of this too.
PespModule.text = `const PespModule = (${makePespModule})();`;

if (typeof module === 'object') module.exports = PespModule;
