'use strict';

// The lines that a session must repeat before a next one, since the module keeps nothing between two runs.

// A later line of the same kind for the same event or activity makes these idle.
const KINDS = { fix: 'window', window: 'window', unfix: 'window', time: 'time', untime: 'time', span: 'span', weight: 'weight' };
const OF_EVENTS = ['fix', 'window', 'unfix', 'time', 'untime'];

const eventOf = word => `event ${Number(word)}`;

// The event or activity that a line changes, adds or drops.
const aboutOf = ([name, word, number]) => {
  if (name === 'add' || name === 'drop') return `${word} ${Number(number)}`;
  return OF_EVENTS.includes(name) ? eventOf(word) : `activity ${Number(word)}`;
};

// The events that become the ends of an activity.
const endsOf = words => {
  if (words[0] === 'ends') return words.slice(2, 4).map(eventOf);
  return words[0] === 'add' && words[1] === 'activity' ? words.slice(3, 5).map(eventOf) : [];
};

class Kept {
  constructor() {
    // The lines that build the network and its times, each by a key, in their original order.
    this.state = new Map();
    this.count = 0;
    // The keys of all lines about an event or activity that one of them added.
    this.keys = new Map();
    // In how many lines an event is an end.
    this.uses = new Map();
    // All lines on which the reply to a later `try` may depend, including searches; and whether one of these stopped.
    this.story = null;
    this.hasStopped = false;
  }

  // A line that was answered by `ok`.
  change(words, bytes) {
    if (this.story) this.story.push(bytes);
    const [name] = words, about = aboutOf(words), ends = endsOf(words);
    if (name === 'drop' && this.takeBack(about)) return;
    if (name === 'add') this.keys.set(about, new Set());
    const key = KINDS[name] ? `${KINDS[name]} of ${about}` : `line ${this.count++}`;
    this.state.delete(key);
    this.state.set(key, { bytes, ends });
    this.keys.get(about)?.add(key);
    this.use(ends, 1);
  }

  use(ends, count) {
    for (const event of ends) this.uses.set(event, (this.uses.get(event) || 0) + count);
  }

  // Omits all lines about a dropped event or activity, if one of them added it and no other one names it.
  takeBack(about) {
    const keys = this.keys.get(about);
    if (!keys || this.uses.get(about)) return false;
    for (const key of keys) {
      this.use(this.state.get(key).ends, -1);
      this.state.delete(key);
    }
    this.keys.delete(about);
    return true;
  }

  // A search, and the first word of its reply. After an optimum nothing depends on earlier searches.
  search([name], bytes, told) {
    if (name === 'optimum' && told === 'optimum') this.forget();
    this.story = this.story || this.lines();
    this.story.push(bytes);
    this.hasStopped = this.hasStopped || told === 'stopped';
  }

  forget() {
    this.story = null;
    this.hasStopped = false;
  }

  // The optimum became the working timetable.
  adopt(bytes, optimum) {
    const story = this.story;
    this.story = null;
    for (const row of optimum.toString('latin1').trimEnd().split('\n').slice(1)) {
      const text = `time ${row}`;
      this.change(text.split(' '), Buffer.from(text));
    }
    this.story = story || this.lines();
    this.story.push(bytes);
  }

  lines() {
    return [...this.state.values()].map(({ bytes }) => bytes);
  }

  // The lines before next ones of these names. An optimum is the same whatever was searched before it, but is found sooner
  // if it resumes a stopped search.
  before(names) {
    const rests = names.includes('try') || (this.hasStopped && ['optimum', 'adopt'].some(name => names.includes(name)));
    return rests && this.story ? this.story : this.lines();
  }
}

module.exports = { Kept };
