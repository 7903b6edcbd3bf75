'use strict';

// The ends of replies, as docs/FORMATS.md defines them (From a program).

const LINE_FEED = 10;
// The place of the first line's word with the number of following lines, by the first word.
const COUNTED = { domains: 1, tensions: 1, violations: 1, optimum: 2, stopped: 2, '#': 4 };

const followed = first => {
  const words = first.split(' ');
  return Number(words[COUNTED[words[0]]] || 0);
};

const afterLine = (output, from) => {
  const end = output.indexOf(LINE_FEED, from);
  return end < 0 ? output.length : end + 1;
};

// The complete replies in an output, in their order; each is bytes.
const split = output => {
  const replies = [];
  for (let from = 0, end; from < output.length; from = end) {
    end = afterLine(output, from);
    for (let more = followed(output.toString('latin1', from, end - 1)); more > 0; more--) end = afterLine(output, end);
    replies.push(output.subarray(from, end));
  }
  return replies;
};

const firstWord = reply => reply.toString('latin1', 0, 16).split(/[ \n]/, 1)[0];

module.exports = { split, firstWord };
