'use strict';

// Files that are read whole, and standard input and output, piece by piece.

const fs = require('node:fs');

// The early end of a run; its message is the program's own text without its name.
class Fault extends Error {}

const LONGEST_FILE = 67_108_864;
const PIECE = 1 << 20;
const PAUSE = 5;

// A shared device may not wait by itself.
const again = call => {
  for (;;) {
    try {
      return call();
    } catch (fault) {
      if (fault.code !== 'EAGAIN') throw fault;
      Atomics.wait(new Int32Array(new SharedArrayBuffer(4)), 0, 0, PAUSE);
    }
  }
};

const read = file => {
  const piece = Buffer.allocUnsafe(PIECE);
  return piece.subarray(0, again(() => fs.readSync(file, piece)));
};

const readWhole = (name, path) => {
  const file = fs.openSync(path, 'r');
  const pieces = [];
  let length = fs.fstatSync(file).size;
  if (length > LONGEST_FILE) throw new Fault(`${name} file is too long`);
  for (length = 0; length <= LONGEST_FILE; length += pieces.at(-1).length) {
    const piece = read(file);
    if (!piece.length) return Buffer.concat(pieces);
    pieces.push(piece);
  }
  throw new Fault(`${name} file is too long`);
};

// The bytes of the file at a path, if one is given.
const contents = (name, path) => {
  if (path === undefined) return Buffer.alloc(0);
  try {
    return readWhole(name, path);
  } catch (fault) {
    throw fault instanceof Fault ? fault : new Fault(`${name} file cannot be read`);
  }
};

// Bytes of standard input; none at its end.
const readCommands = () => {
  try {
    return read(0);
  } catch {
    throw new Fault('commands cannot be read');
  }
};

const writeAll = (bytes, file = 1) => {
  try {
    for (let place = 0; place < bytes.length; ) place += again(() => fs.writeSync(file, bytes, place));
  } catch {
    throw new Fault('replies cannot be written');
  }
};

module.exports = { contents, readCommands, writeAll, Fault };
