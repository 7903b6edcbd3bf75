// A Worker's answers on the rest beside a hand: the best timetable, or the nearest one, of the network with the hand's changes,
// in which its events are at their places.

import { edit, editsOf } from '../base/edits.js';
import { follow } from '../base/following.js';
import { heldElsewhere, tellNearest } from './nearest.js';
import { untilSure } from './pricing.js';
import { does } from '../base/running.js';

// The changes of its searches are undone afterwards.
const tellBest = async (session, network, { edits, held, events }, tell, how) => {
  const tried = [...edits, ...held.map(([event, time]) => edit.fix(event, time))], { back } = follow({ network, times: new Map() }, tried);
  does(session, tried.map(({ line }) => line));
  try {
    const found = await untilSure(session, events, { ...how, tell: near => tell({ near }) });
    if (found) tell({ near: found, isDone: true });
  } finally {
    does(session, back.map(({ line }) => line));
  }
};

export const tellRest = (session, network, asked, tell, how) => {
  const edits = editsOf(asked.edits), { held } = asked, { network: after } = follow({ network, times: new Map() }, edits), events = held.map(([event]) => event);
  if (asked.mode === 'near') return tellNearest(after, { ...asked, held: events, most: null }, tell, how);
  const event = heldElsewhere(after, new Map(held), events);
  return event === undefined ? tellBest(session, network, { ...asked, edits }, tell, how) : tell({ near: { kind: 'outside', event }, isDone: true });
};
