'use strict';

// Answers runs by the page's module, for tools/tests/page_module.py: each line of standard input is a run in JSON, with its bytes in
// base64, and each line of standard output is its result. `limit` is the most memory for blocks; 0 is no limit. If `isSession`, a
// session answers line by line, and in the end its cost and its optimum in numbers and by lines.
//
// usage: node module_runs.js MODULE.JS MODULE.WASM
const { readFileSync } = require('node:fs');
const { createInterface } = require('node:readline');

const PespModule = require(process.argv[2]);
const bytesOf = text => new Uint8Array(Buffer.from(text, 'base64'));
const MOST = 2 ** 30;
// The nodes of a search of a random run.
const NODES = 20;

const linesOf = bytes => {
  const lines = Buffer.from(bytes).toString('latin1').split('\n');
  if (!lines[lines.length - 1]) lines.pop();
  return lines.map(line => new Uint8Array(Buffer.from(line, 'latin1')));
};

// Whether the cost is that of the line `cost`, if there is memory for that.
const isSameCost = (module, session) => {
  const { cost, fault } = PespModule.cost(module, session), { output, ending } = PespModule.ask(module, session, 'cost');
  return ending.status > 0 || Buffer.from(output).toString() === `${fault || `cost ${cost}`}\n`;
};

// Whether the result of a search in numbers is that of the line `try 0` after it, if there is memory for both.
const isSameSearch = (module, session) => {
  const { state, cost, lowerBound, goesOn, times, ending } = PespModule.search(module, session, NODES);
  const { output, ending: after } = PespModule.ask(module, session, 'try 0');
  if (ending.status > 0 || after.status > 0) return true;
  const [head, ...rows] = Buffer.from(output).toString().trimEnd().split('\n'), told = `${cost} ${times.length}`;
  const isBound = state === 0 || lowerBound <= cost, areTimes = rows.every((row, place) => Number(row.split(' ')[1]) === times[place]);
  const isStill = state < 2 || !goesOn;
  return head === ['stopped none', `stopped ${told}`, `optimum ${told}`, 'infeasible'][state] && isBound && areTimes && isStill;
};

// The answers of a session up to the first line that it does not answer.
const answerByLines = (module, { commands, ...files }) => {
  const { session, ending, fault } = PespModule.open(module, files), replies = [], ended = { ending, fault };
  if (!session) return { output: Buffer.alloc(0), ...ended };
  try {
    for (const [place, line] of linesOf(commands).entries()) {
      const came = PespModule.ask(module, session, line);
      if (came.fault) Object.assign(ended, { ending: came.ending, fault: PespModule.faultOf({ ...came.ending, place: place + 1 }) });
      if (came.fault) break;
      replies.push(Buffer.from(came.output));
    }
    if (!isSameCost(module, session)) ended.fault = 'the cost is told otherwise';
    if (PespModule.canSearch(module) && !isSameSearch(module, session)) ended.fault = 'the optimum is told otherwise';
    return { output: Buffer.concat(replies), ...ended };
  } finally {
    PespModule.close(module, session);
  }
};

(async () => {
  const module = await PespModule.start(readFileSync(process.argv[3]));
  for await (const line of createInterface({ input: process.stdin })) {
    const { period, limit, room, isSession, ...texts } = JSON.parse(line);
    const files = Object.fromEntries(Object.entries(texts).map(([name, text]) => [name, bytesOf(text)]));
    PespModule.limit(module, limit ? Number(module.calls.__heap_base.value) + limit : MOST);
    if (room) module.room = room;
    const { output, ending, fault } = isSession ? answerByLines(module, { period, ...files }) : PespModule.answer(module, { period, ...files });
    const used = [module.calls.pesp_in_use(), module.calls.pesp_most_in_use()].map(Number);
    console.log(JSON.stringify({ output: Buffer.from(output).toString('base64'), ending, fault, used }));
  }
})();
