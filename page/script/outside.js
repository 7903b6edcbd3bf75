// The interface for tests and measurements, and for drawing reports under Node: `window.Page`. No module uses it.

import { addLabels } from './forms/adding.js';
import { zipOf } from './files/archive.js';
import { keptFree } from './draw/bands.js';
import { boundingOf } from './search/bounding.js';
import { findWhy } from './search/conflict.js';
import { chooseCorridor, corridor } from './draw/corridor.js';
import { diagramOf } from './draw/diagram.js';
import { costsBeside, differences } from './session/differing.js';
import { display, within } from './session/display.js';
import { drawing, find, readyAfter, say } from './base/elements.js';
import { showBar, showRow } from './forms/events.js';
import { filesOf, filesToSave, folderName, isSaved } from './files/filing.js';
import { trackOf } from './draw/frames.js';
import { placesText, readPlaces } from './base/labels.js';
import { moveTrain } from './forms/moving.js';
import { bareClock, domainText, eventName, kindOf, labelOf, stepOf } from './session/names.js';
import { netgraphOf } from './draw/netgraph.js';
import { readNetwork } from './base/network.js';
import { openStory } from './files/opening.js';
import { layOut } from './draw/places.js';
import { programNow } from './base/program.js';
import { isRefused, readCost, readDomains, readTensions, readViolations } from './base/replies.js';
import { reportOf, viewOfReport } from './draw/report.js';
import { run } from './base/running.js';
import { showSaving } from './files/saving.js';
import {
  askSession, choose, doStep, goTo, journal, present, preview, redo, refresh, session, timesNow, titleOf, undo,
} from './session/session.js';
import { sizeNow } from './session/sizes.js';
import { atOnce } from './draw/slices.js';
import { rangeShown } from './forms/spans.js';
import { spread } from './draw/spreading.js';
import { stories } from './files/stories.js';
import { showTab, tabNow } from './session/tabs.js';
import { openTexts } from './files/texts.js';
import { isForward } from './session/trains.js';
import { countViolated, isInfeasible } from './base/viewing.js';
import { asItIs } from './search/widening.js';

window.Page = Object.freeze({
  get view() { return display.view; },
  get labels() { return display.labels; },
  get places() { return display.places; },
  get chosen() { return display.chosen; },
  get chosenLine() { return display.chosenLine; },
  get tab() { return tabNow(); },
  get program() { return programNow(); },
  get readyAfter() { return readyAfter(); },
  ask: askSession, step: doStep,
  addLabels, asItIs, atOnce, bareClock, boundingOf, choose, chooseCorridor, corridor, costsBeside, countViolated, diagramOf, differences, domainText, drawing,
  eventName, filesOf, filesToSave, find, findWhy, folderName, goTo, isForward, isInfeasible, isRefused, isSaved, journal, keptFree,
  kindOf, labelOf, layOut, moveTrain, netgraphOf, openStory, openTexts, placesText, present, preview, rangeShown, readCost,
  readDomains, readNetwork, readPlaces, readTensions, readViolations, redo, refresh, reportOf, run, say, session, showBar,
  showRow, showSaving, showTab, sizeNow, spread, stepOf, stories, timesNow, titleOf, trackOf, undo, viewOfReport, within, zipOf,
});
