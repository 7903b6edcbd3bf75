'use strict';

// Standard input as lines, with the limits of the program.

const { readCommands } = require('./devices.js');

const LONGEST_LINE = 4_096;
const MOST_LINES = 1_000_000;
const LINE_FEED = 10;

class Lines {
  constructor() {
    this.held = Buffer.alloc(0);
    this.place = 0;
    this.isOver = false;
  }

  // The complete lines after some bytes, each with its number; and what ends the run after them.
  next() {
    const taken = [];
    const fault = this.read(taken);
    return { taken, fault };
  }

  read(taken) {
    let piece;
    try {
      piece = readCommands();
    } catch (fault) {
      return fault.message;
    }
    this.isOver = !piece.length;
    this.held = Buffer.concat([this.held, piece]);
    return this.cut(taken);
  }

  cut(taken) {
    let from = 0, fault = '';
    while (!fault && from < this.held.length) {
      const end = this.held.indexOf(LINE_FEED, from);
      fault = this.faultOf((end < 0 ? this.held.length : end) - from);
      if (fault || end < 0) break;
      taken.push({ bytes: this.held.subarray(from, end), place: ++this.place });
      from = end + 1;
    }
    this.held = this.held.subarray(from);
    if (!fault && this.isOver && this.held.length) taken.push({ bytes: this.held, place: ++this.place });
    return fault;
  }

  // The fault of a next line of this many bytes.
  faultOf(length) {
    if (this.place === MOST_LINES) return `more than ${MOST_LINES} lines`;
    return length > LONGEST_LINE ? `line ${this.place + 1} is longer than ${LONGEST_LINE} bytes` : '';
  }
}

module.exports = { Lines };
