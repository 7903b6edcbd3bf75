// Cost in words: by its name in the labels of the network, such as passenger minutes, which follows the number.

import { display } from './display.js';

const counted = number => number.toLocaleString('en');

export const costName = () => display.labels.cost || 'cost';

// The same at the beginning of a sentence.
export const sentence = text => `${text.slice(0, 1).toUpperCase()}${text.slice(1)}`;

// As `cost 534`, or `534 passenger minutes`.
export const costText = cost => display.labels.cost ? `${counted(cost)} ${costName()}` : `cost ${counted(cost)}`;

// As `costs 534`, or `has 534 passenger minutes`.
export const costsText = cost => display.labels.cost ? `has ${costText(cost)}` : `costs ${counted(cost)}`;

// By how much it differs, as `cost 534 more`, or `534 passenger minutes more`.
export const costMoreText = more => more ? `${costText(more < 0n ? -more : more)} ${more < 0n ? 'less' : 'more'}` : `${costName()} as before`;
