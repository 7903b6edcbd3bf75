// Communication with the program: sessions, which stay open over a base (files and the lines after them); and whole runs, each
// over another network.

import { domainReader } from './domains.js';
import { readEdit, timeEdits } from './edits.js';
import { follow } from './following.js';
import { readNetwork } from './network.js';
import { answer, openFiles } from './program.js';
import {
  foundIn, isRefused, linesOfReply, readCost, readDomains, readFound, readTensions, readViolations, splitReplies,
} from './replies.js';
import { isAdopt, timesOfFile } from './times.js';

// A run or a session that ended with a fault; its message is the program's text. `isWanting` if it is out of memory; `refused`
// has a line that was refused, with the reply and perhaps the network.
export class RunFault extends Error {
  constructor(message, isWanting = false, refused = null) {
    super(message);
    this.isWanting = isWanting;
    this.refused = refused;
  }
}

// The replies to some lines after those of the base. Raises RunFault.
export const run = (base, lines) => {
  const all = [...base.setup, ...lines];
  const { output, fault, isWanting } = answer({ ...base, commands: all.length ? all.join('\n') + '\n' : '' });
  if (fault) throw new RunFault(fault, isWanting);
  const replies = splitReplies(output);
  base.setup.forEach((line, place) => isDone(line, replies[place]));
  return replies.slice(base.setup.length);
};

// Raises RunFault if a line was refused.
const isDone = (line, reply, network = null) => {
  if (reply[0] !== 'ok') throw new RunFault(`${line}: ${reply[0]}`, false, { line, reply: reply[0], network });
};

/** The result of a call on a session, unless it is a fault.
 * @returns {any} */
const withoutFault = ({ fault, isWanting, ...reply }) => {
  if (fault) throw new RunFault(fault, isWanting);
  return reply;
};

// A session of the files of a base. `ask` returns the reply to a line, the same value if it is unchanged; `domains` those of a
// network; `search` the result of a search with this many more nodes, its times by the given events, with a bound. Raises RunFault.
const sessionOf = base => {
  const { fault, ask: askText, domains, search, close } = openFiles(base), known = new Map(), read = domainReader();
  if (fault) throw new RunFault(fault);
  const ask = line => {
    const { text } = withoutFault(askText(line)), before = known.get(line);
    if (before && before.text === text) return before.reply;
    const reply = linesOfReply(text);
    if (QUESTIONS.includes(line)) known.set(line, { text, reply });
    return reply;
  };
  return {
    close, ask,
    domains: ({ events, period }) => domains ? read(withoutFault(domains(events, period)).bits, events, period) : readDomains(ask('domains')),
    search: (nodes, events) => foundIn(withoutFault(search(nodes)), events),
  };
};

// The result of a use of a session, which is closed if that fails.
export const prepared = (session, act) => {
  try {
    return act();
  } catch (fault) {
    session.close();
    throw fault;
  }
};

// Sends some lines to a session. Raises RunFault.
export const does = (session, lines) => lines.forEach(line => isDone(line, session.ask(line)));

// A session after some lines, which are those of a base, or also of later steps. Raises RunFault.
export const openSession = (base, lines = base.setup) => {
  const session = sessionOf(base);
  prepared(session, () => does(session, lines));
  return session;
};

const QUESTIONS = ['domains', 'tensions', 'violations', 'cost'];

const READ = {
  domains: (session, network) => ({ domains: session.domains(network) }),
  tensions: session => ({ tensions: readTensions(session.ask('tensions')) }),
  violations: session => ({ violations: readViolations(session.ask('violations')) }),
  cost: session => {
    const reply = session.ask('cost');
    return { cost: readCost(reply), missing: isRefused(reply) ? reply[0].replace(/^refused 11 /, '') : '' };
  },
};

// The replies of a session about its network and its timetable, to all queries or some.
export const look = (session, network, questions = QUESTIONS) => Object.assign({}, ...questions.map(question => READ[question](session, network)));

// A new session of a base, with its network and its times. An `adopt` comes after an `optimum`, whose reply has the times;
// the program searches once for both. Raises RunFault.
export const openFirst = base => {
  const session = sessionOf(base), networkNow = () => readNetwork(session.ask('dump'));
  return prepared(session, () => {
    const filed = networkNow(), before = base.times ? timesOfFile(base, filed.events) : new Map();
    const edits = base.setup.flatMap(line => doneFirst(session, line, networkNow));
    const { times } = follow({ network: filed, times: before }, edits);
    return { session, network: edits.length ? networkNow() : filed, times };
  });
};

// Sends a line to a session, and returns the edits with the same effect on its network and times. Raises RunFault, with the
// network then.
const doneFirst = (session, line, networkNow) => {
  const found = isAdopt(line) ? readFound(session.ask('optimum')) : null, reply = session.ask(line);
  isDone(line, reply, reply[0] === 'ok' ? null : networkNow());
  return found ? timeEdits(found.times) : [readEdit(line)];
};
