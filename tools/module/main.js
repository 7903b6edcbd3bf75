'use strict';

// The program's words, files, streams and exit statuses over the page's module; tools/pespbench --module runs it.
//
// usage: node main.js PAGE.HTML MODULE.JS WORD..

const { readFileSync } = require('node:fs');
const { inflateRawSync } = require('node:zlib');
const { settingsOf, wordsAreText, Refused, Shown } = require('./words.js');
const { contents, writeAll, Fault } = require('./devices.js');
const { Lines } = require('./lines.js');
const { Session } = require('./session.js');

const CHECK = ['tensions', 'violations', 'cost'].map(word => Buffer.from(word));

const moduleOf = (page, PespModule) => {
  const found = /const PESPBENCH_MODULE = "([^"]*)"/.exec(readFileSync(page, 'latin1'));
  if (!found) throw new Error(`${page} has no module`);
  return inflateRawSync(PespModule.bytesOfDigits(found[1]));
};

const filesOf = settings => ({
  activities: contents('activities', settings.activities),
  fixed: contents('fixed', settings.fixed),
  times: contents('times', settings.times),
});

const answerLines = session => {
  const lines = new Lines();
  while (!lines.isOver) {
    const { taken, fault } = lines.next();
    for (const reply of session.answer(taken)) writeAll(reply);
    if (fault) throw new Fault(fault);
  }
};

const work = async (page, script, words) => {
  if (!wordsAreText()) throw new Refused('a word of the command line is not UTF-8');
  const settings = settingsOf(words);
  const files = filesOf(settings);
  const PespModule = require(script);
  const start = () => PespModule.start(moduleOf(page, PespModule));
  const session = await Session.open(PespModule, start, { period: settings.period, ...files });
  if (!settings.check) return answerLines(session);
  for (const reply of session.answer(CHECK.map(bytes => ({ bytes, place: 0 })))) writeAll(reply);
};

const tell = text => {
  try {
    writeAll(Buffer.from(text), 2);
  } catch {
    // If standard error cannot be written, only the status reports the fault.
  }
};

// The exit status, and what standard error says.
const ended = fault => {
  if (fault instanceof Fault) return [1, `pespbench: ${fault.message}\n`];
  if (fault instanceof Refused) return [2, `error: ${fault.message}\n`];
  return [70, `tools/pespbench: the page's module broke off: ${fault.message}\n`];
};

// The page has the version, and the folder the help.
const textOf = (name, page) => {
  if (name === 'help') return readFileSync(`${__dirname}/help.txt`);
  const [, version] = /<span id="version">([^<]*)</.exec(readFileSync(page, 'latin1'));
  return Buffer.from(`pespbench ${version}, the page's module under Node, and not proved\n`);
};

const main = async ([page, script, ...words]) => {
  try {
    await work(page, script, words).catch(fault => {
      if (!(fault instanceof Shown)) throw fault;
      writeAll(textOf(fault.message, page));
    });
    return 0;
  } catch (fault) {
    const [status, text] = ended(fault);
    tell(text);
    return status;
  }
};

main(process.argv.slice(2)).then(status => process.exit(status));
