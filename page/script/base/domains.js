// Domains as the module returns them: a row of bytes for each event, with a bit for each minute at which it can still be.

const minutesIn = row => {
  const minutes = [];
  row.forEach((byte, place) => {
    for (let rest = byte; rest; rest &= rest - 1) minutes.push(8 * place + 31 - Math.clz32(rest & -rest));
  });
  return minutes;
};

const isSame = (one, other, from, end) => {
  for (let place = from; place < end; place += 1) if (one[place] !== other[place]) return false;
  return true;
};

// Reads the domains of a session. Unchanged minutes of an event stay the same value, since a step changes few of them.
export const domainReader = () => {
  let before = { events: null, bits: null, rows: [] };
  return (bits, events, period) => {
    const bytes = Math.ceil(period / 8), isKnown = before.events === events;
    const rows = events.map((event, place) => {
      const from = place * bytes, end = from + bytes;
      return isKnown && isSame(bits, before.bits, from, end) ? before.rows[place] : [event, minutesIn(bits.subarray(from, end))];
    });
    before = { events, bits, rows };
    return new Map(rows);
  };
};
