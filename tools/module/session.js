'use strict';

// A session over a module that answers whole runs and keeps nothing: the effective earlier lines are repeated before the
// next ones, and only new replies are returned. Replies depend only on the lines, so they are the program's.

const { Fault } = require('./devices.js');
const { Kept } = require('./kept.js');
const { split, firstWord } = require('./replies.js');

const OPTIMUM = Buffer.from('optimum');
const FEED = Buffer.from('\n');
// The number of lines that are answered in one run, at first; it grows while replies are short.
const FIRST_COUNT = 64, MOST_COUNT = 1 << 16;
const SHORT = 1 << 20, LONG = 1 << 23;
const OUT_OF_MEMORY = [5, 6];

const wordsOf = bytes => bytes.toString('latin1').split(/[ \t\r]+/).filter(word => word);
const isSaid = ({ words }) => words.length > 0 && !words[0].startsWith('#');
const scriptOf = lines => Buffer.concat(lines.flatMap(line => [line, FEED]));

class Session {
  // Files are checked before any line; a fault of theirs is the run's.
  static async open(PespModule, start, opening) {
    const session = new Session(PespModule, await start(), opening);
    session.run([]);
    return session;
  }

  constructor(PespModule, module, opening) {
    this.answers = given => PespModule.answer(module, { ...opening, ...given });
    this.kept = new Kept();
    this.known = null;
    this.count = FIRST_COUNT;
  }

  // The result of the lines, and of those before them; a fault of a file ends the run.
  run(lines) {
    const { output, ending, fault } = this.answers({ commands: scriptOf(lines) });
    if (fault && !OUT_OF_MEMORY.includes(ending.status)) throw new Fault(fault);
    return { output: Buffer.from(output), ending };
  }

  // The replies to the lines, some at a time.
  *answer(lines) {
    const left = lines.map(line => ({ ...line, words: wordsOf(line.bytes) })).filter(isSaid);
    while (left.length) {
      const [{ words }] = left;
      if (this.known && this.isTold(words)) {
        left.shift();
        yield this.known;
      } else {
        yield this.some(left);
      }
    }
  }

  // Whether the line asks for the optimum, which is known: it is returned again.
  isTold([name, limit, ...rest]) {
    if (rest.length) return false;
    return limit === undefined ? name === 'optimum' : name === 'try' && /^\+?[0-9]{1,12}$/.test(limit);
  }

  // Answers the first of the lines, removes them, and returns their replies.
  some(left) {
    const lines = left.slice(0, this.count);
    const before = this.kept.before(lines.map(({ words }) => words[0]));
    const said = lines.flatMap(line => (line.words[0] === 'adopt' ? [OPTIMUM, line.bytes] : [line.bytes]));
    const { output, ending } = this.run([...before, ...said]);
    if (ending.status && lines.length > 1) {
      this.count = lines.length >> 1;
      return Buffer.alloc(0);
    }
    if (ending.status) throw new Fault(`out of memory at line ${lines[0].place}`);
    const replies = split(output).slice(before.length);
    left.splice(0, lines.length);
    return this.noted(lines, replies);
  }

  noted(lines, replies) {
    const given = lines.map(line => {
      const told = line.words[0] === 'adopt' ? replies.shift() : null;
      if (told) this.note({ words: ['optimum'], bytes: OPTIMUM }, told);
      const reply = replies.shift();
      this.note(line, reply);
      return reply;
    });
    const output = Buffer.concat(given);
    if (output.length < SHORT) this.count = Math.min(2 * this.count, MOST_COUNT);
    if (output.length > LONG) this.count = Math.max(this.count >> 1, 1);
    return output;
  }

  // The effect of a line and its reply on later lines.
  note({ words, bytes }, reply) {
    const first = firstWord(reply);
    if (words[0] === 'optimum' || words[0] === 'try') this.noteSearch(words, bytes, first, reply);
    else if (first !== 'ok') return;
    else if (words[0] === 'adopt') this.kept.adopt(bytes, this.known);
    else this.noteChange(words, bytes);
  }

  noteSearch(words, bytes, first, reply) {
    if (!['optimum', 'infeasible', 'stopped'].includes(first)) return;
    if (!this.known) this.kept.search(words, bytes, first);
    if (first !== 'stopped') this.known = reply;
  }

  // Times do not affect searches.
  noteChange(words, bytes) {
    this.kept.change(words, bytes);
    if (words[0] !== 'time' && words[0] !== 'untime') this.known = null;
  }
}

module.exports = { Session };
