// A view of the replies, in numbers.

// The minutes of domains; they stay the same value if a step does not change them.
const known = new WeakMap();
const lengthsOf = ({ domains }) => {
  if (!known.has(domains)) known.set(domains, [...domains.values()].map(minutes => minutes.length));
  return known.get(domains);
};

// Whether some event can be at no minute.
export const isInfeasible = view => lengthsOf(view).includes(0);

// How many events can be at fewer minutes than all.
export const countLimited = view => lengthsOf(view).filter(length => length < view.network.period).length;

// How many activities and events are violated, of those that have times; null if that is unknown.
export const countViolated = ({ violations }) => violations && violations.activities.size + violations.events.size;

// Whether all events have times, and everything is met.
export const isMet = view => !view.missing && countViolated(view) === 0;

// The minutes of an activity. Replies count them from the least ones, and may so be one period too few or too many. If a span is
// below a period, that number is right; otherwise of the two the one nearer to the span is.
export const minutesHad = ({ network: { activities, period }, tensions }, number) => {
  const { lower, upper } = activities.get(number), { tension } = tensions.get(number), less = tension - period;
  return (upper < period && less >= 0) || lower - less < tension - upper ? less : tension;
};
