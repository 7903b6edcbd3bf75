// Starts the page: the program first, and then the first story, or reports why it cannot start. A report is read before that.

import { addingPanel } from './forms/adding.js';
import { startAltering } from './forms/altering.js';
import { alwaysPanel, startAlways } from './search/always.js';
import { startAsking } from './search/asking.js';
import { axisPanel } from './forms/axis.js';
import { boardsPanel, startBoards } from './draw/boards.js';
import { changingPanel } from './forms/changing.js';
import { choosingPanel, startChoosing } from './draw/choosing.js';
import { corridorPanel } from './draw/corridor.js';
import { costingPanel, startCosting } from './search/costing.js';
import { departingPanel } from './forms/departing.js';
import { diagramPanel, startDiagram } from './draw/diagram.js';
import { draftsPanel, startDrafts } from './files/drafts.js';
import { find, tellReady } from './base/elements.js';
import { eventsPanel } from './forms/events.js';
import { factsPanel } from './forms/facts.js';
import { finderPanel } from './draw/finder.js';
import { findingPanel, startFinding } from './draw/finding.js';
import { gainsPanel, startGains } from './search/gains.js';
import { startHanding } from './files/handing.js';
import { headPanel, startHead } from './head.js';
import { helpsPanel, startHelps } from './forms/helps.js';
import { startLegend } from './draw/legend.js';
import { startLining } from './forms/lining.js';
import { linkingPanel, startLinks } from './files/linking.js';
import { startLines, stepsPanel, violatedPanel } from './lists.js';
import { movingPanel } from './forms/moving.js';
import { netgraphPanel, startNetgraph } from './draw/netgraph.js';
import { openStory, startOpening } from './files/opening.js';
import { papersPanel, startPapers } from './draw/papers.js';
import { startPrinting } from './draw/printing.js';
import { startProgram } from './base/program.js';
import { proposingPanel, startProposing } from './search/proposing.js';
import { openReport, readReport, reportGiven } from './draw/report.js';
import { startSaving } from './files/saving.js';
import { searchingPanel, startSearching } from './search/searching.js';
import { addPanels } from './session/session.js';
import { startSizes } from './session/sizes.js';
import { spansPanel } from './forms/spans.js';
import { startStations, stationsPanel } from './draw/stations.js';
import { stories } from './files/stories.js';
import { startStrips } from './forms/strips.js';
import { tablesPanel } from './draw/tables.js';
import { startTabs } from './session/tabs.js';
import { startTelling, tellingPanel } from './search/telling.js';
import { trafficPanel } from './draw/traffic.js';
import { startUnfolding } from './forms/unfolding.js';
import { startVariants, variantsPanel } from './search/variants.js';
import { startWhole } from './draw/whole.js';
import { startZooming, zoomPanel } from './draw/zooming.js';

// In the order in which they are drawn.
const PANELS = [
  zoomPanel, axisPanel, eventsPanel, factsPanel, spansPanel, costingPanel, movingPanel, departingPanel, changingPanel, addingPanel, headPanel, diagramPanel, tablesPanel, netgraphPanel, boardsPanel, papersPanel,
  variantsPanel, findingPanel, finderPanel, corridorPanel, trafficPanel, stationsPanel, choosingPanel, violatedPanel, stepsPanel, searchingPanel, proposingPanel, alwaysPanel,
  tellingPanel, gainsPanel, helpsPanel, linkingPanel, draftsPanel,
];

const STARTS = [
  startHead, startTabs, startSizes, startWhole, startZooming, startUnfolding, startBoards, startPapers, startStrips, startDiagram, startCosting, startChoosing, startLines, startLining, startAltering, startVariants, startHelps, startLegend,
  startFinding, startStations, startAsking, startSearching, startNetgraph, startProposing, startAlways, startTelling, startGains, startPrinting, startOpening, startSaving,
  startHanding,
];

const start = async () => {
  let report = null;
  try {
    report = reportGiven();
    if (report) await readReport(report);
    await startProgram(await PespModule.compile(PESPBENCH_MODULE));
  } catch (fault) {
    find('cannot-why').textContent = String(fault);
    find('cannot').show();
    return;
  }
  addPanels(PANELS);
  for (const each of STARTS) each();
  if (report) openReport(report);
  else openStory(stories[0]);
  startLinks();
  await startDrafts();
  tellReady();
};

start();
