'use strict';

// The words of the command line, parsed like by the program: in order, and the first fault ends it.

const { readFileSync } = require('node:fs');

// What is printed instead of answers.
class Shown extends Error {}

class Refused extends Error {}

const LEAST_PERIOD = 2, GREATEST_PERIOD = 1440, USUAL_PERIOD = 60;
const VALUED = ['period', 'fixed', 'times'];
const MORE = '\n\nUsage: pespbench [OPTIONS] [ACTIVITIES]\n\nFor more information, try \'--help\'.';

const refuse = text => {
  throw new Refused(text + MORE);
};

// Node converts invalid words to text, so the bytes are read from the system if possible.
const wordsAreText = () => {
  try {
    new TextDecoder('utf-8', { fatal: true }).decode(readFileSync('/proc/self/cmdline'));
    return true;
  } catch (fault) {
    return fault.code === 'ENOENT' && !process.argv.some(word => word.includes('\ufffd'));
  }
};

const periodOf = word => {
  const number = /^\+?[0-9]+$/.test(word) ? Number(word) : 0;
  if (number >= LEAST_PERIOD && number <= GREATEST_PERIOD) return number;
  return refuse(`invalid value '${word}' for '--period <T>': it is not in ${LEAST_PERIOD}..=${GREATEST_PERIOD}`);
};

const put = (settings, name, value) => {
  if (name in settings) refuse(`the argument '--${name}' cannot be used multiple times`);
  settings[name] = name === 'period' ? periodOf(value) : value;
};

// The value of an option follows `=`, or is the next word, unless that begins with `-`.
const valueOf = (name, inline, words) => {
  if (inline !== undefined) return inline;
  if (!words.length || (words[0].startsWith('-') && words[0] !== '-')) return refuse(`a value is required for '--${name}'`);
  return words.shift();
};

const takeOption = (settings, word, words) => {
  const [, name, inline] = /^--([^=]*)(?:=([^]*))?$/.exec(word) || [];
  if (VALUED.includes(name)) return put(settings, name, valueOf(name, inline, words));
  if (name === 'check' || name === 'help' || name === 'version') {
    if (inline !== undefined) refuse(`unexpected value '${inline}' for '--${name}'`);
    if (name !== 'check') throw new Shown(name);
    return put(settings, name, true);
  }
  if (word.startsWith('-h')) throw new Shown('help');
  if (word.startsWith('-V')) throw new Shown('version');
  return refuse(`unexpected argument '${word}' found`);
};

const takeFile = (settings, word) => {
  if ('activities' in settings) refuse(`unexpected argument '${word}' found`);
  settings.activities = word;
};

const settingsOf = given => {
  const settings = {}, words = [...given];
  while (words.length) {
    const word = words.shift();
    if (word === '--') words.splice(0).forEach(rest => takeFile(settings, rest));
    else if (word.startsWith('-') && word !== '-') takeOption(settings, word, words);
    else takeFile(settings, word);
  }
  return { period: USUAL_PERIOD, check: false, ...settings };
};

module.exports = { settingsOf, wordsAreText, Shown, Refused };
