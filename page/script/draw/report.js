// A report: the program's replies that the Python package gathered on a network, drawn as for paper and without controls. All its
// numbers are those of the replies; this page's module is used only once the reader wants to change something.

import { conflictsOf } from '../session/conflicts.js';
import { connectionTables } from './connections.js';
import { costName } from '../session/costs.js';
import { display } from '../session/display.js';
import { element, elided, find, rowOf, tableOf, tellReady } from '../base/elements.js';
import { kindTables } from './kinds.js';
import { activityName, clock, domainText, eventName, lengthText, minutesText, spanMinutes, windowText } from '../session/names.js';
import { netgraphOf } from './netgraph.js';
import { baseOf } from '../base/network.js';
import { NETGRAPH_NOTE } from './printing.js';
import { exactly } from '../base/replies.js';
import { stripPicture } from '../forms/rows.js';
import { openBase, readView } from '../session/session.js';
import { tablesOf } from './tables.js';
import { untimedText } from '../base/timed.js';
import { countViolated, isInfeasible } from '../base/viewing.js';

const MOST_STRIPS = 2000, MOST_VIOLATED = 500;

const counted = count => count.toLocaleString('en');

const mapOf = (rows, read) => new Map(rows.map(([number, ...fields]) => [number, read(fields, number)]));

const labelsOf = ({ events, kinds }) => ({
  events: mapOf(events, ([line, to, station, kind]) => ({ line, to, station, kind })), kinds: new Map(kinds), cost: '',
});

const networkOf = ({ period, events, windows, activities }) => ({
  period, events, windows: mapOf(windows, ([first, length]) => ({ first, length })),
  activities: mapOf(activities, ([first, last, lower, upper, weight], number) => ({ number, first, last, lower, upper, weight })),
});

// The minutes at which events can be; events that can be at any are not listed.
const domainsOf = ({ network: { events, period }, domains }) => {
  const listed = new Map(domains), any = [...Array(period).keys()];
  return new Map(events.map(event => [event, listed.get(event) || any]));
};

// The view of a report, with its labels and places; it becomes the one that is shown.
export const viewOfReport = report => {
  const view = {
    network: networkOf(report.network), domains: domainsOf(report), times: new Map(report.times), labels: labelsOf(report.labels), missing: report.missing,
    tensions: report.tensions && mapOf(report.tensions, ([tension, slack]) => ({ tension, slack })), cost: report.cost === null ? null : exactly(report.cost),
    violations: report.violations && { activities: new Set(report.violations.activities), events: new Set(report.violations.events) },
  };
  readView(view, new Map(report.places));
  return view;
};

// The headline if there is no timetable.
const headline = (view, report) => {
  if (report.isInfeasible || isInfeasible(view)) return 'No timetable meets everything.';
  const count = view.network.events.length, untimed = count - view.times.size;
  if (!untimed) return '';
  if (untimed === count) return 'There is no timetable yet.';
  return `The timetable is not whole: ${counted(untimed)} of ${counted(count)} events ${untimed === 1 ? 'has' : 'have'} no time.`;
};

/** @param {any[]} fact */
const figure = ([words, number, look = '']) => element('div', { class: `figure ${look}`, 'data-figure': words },
  element('b', {}, typeof number === 'string' ? number : number.toLocaleString('en')), ' ', element('span', {}, words));

const figures = view => {
  const { network, lines } = view, count = countViolated(view), stations = new Set(lines.flatMap(line => line.stations));
  const ofLines = [['lines', lines.length], ['trains a period', view.trains.length], ['stations', stations.size]];
  const ofTimes = [['violated', count, count ? 'alarm' : 'good'], [costName(), view.cost]];
  return element('div', { class: 'figures' }, ...[['period', lengthText(network.period)], ...lines.length ? ofLines : [],
    ['events', network.events.length], ['activities', network.activities.size], ...view.cost === null ? [] : ofTimes].map(figure));
};

const summary = (view, report) => {
  const line = headline(view, report), missing = view.missing && `${untimedText(view)}, so nothing is said of slack, ${costName()} and violations.`;
  const notes = [missing, report.search].filter(text => text && text !== line);
  return element('section', { class: 'front' }, element('h1', {}, report.title), line && element('p', { class: 'headline' }, line),
    figures(view), ...notes.map(text => element('p', {}, text)));
};

const section = (id, title, note, ...children) => element('section', { id, class: 'part' }, element('h2', {}, title), note && element('p', { class: 'quiet' }, note), ...children);

// By how much an event misses its window, the shorter way.
const offText = ({ network: { windows, period }, times }, event) => {
  const { first, length } = windows.get(event), modulo = value => ((value % period) + period) % period;
  const early = modulo(first - times.get(event)), late = modulo(times.get(event) - first - length + 1);
  return late <= early ? `${minutesText(late)} late` : `${minutesText(early)} early`;
};

const violated = view => {
  if (!view.violations) return [];
  const { period, windows } = view.network, { all } = conflictsOf(view), { events } = view.violations, count = all.length + events.size;
  if (!count) return [section('violated', 'What is violated', '', element('p', {}, 'Nothing: every activity and every fixed time is met.'))];
  const rows = [
    ...all.map(({ number, activity, had, missed }) => rowOf(activityName(activity), [spanMinutes(activity.lower, activity.upper), minutesText(had), missed],
      { 'data-violated-activity': number })),
    ...[...events].map(event => rowOf(eventName(event), [windowText(windows.get(event), period), clock(view.times.get(event)), offText(view, event)],
      { 'data-violated-event': event })),
  ];
  return [section('violated', 'What is violated', elided(count, MOST_VIOLATED, 'that are violated'),
    tableOf('times listed', ['', 'has to take, or be', 'takes, or is', 'how far off'], rows.slice(0, MOST_VIOLATED)))];
};

const netgraph = view => {
  if (!view.lines.some(line => line.stations.length > 1)) return [];
  const { drawn, note } = netgraphOf(view);
  // Few stations are not drawn larger than many.
  drawn.style.maxWidth = `min(100%, ${drawn.getAttribute('viewBox').split(' ')[2]}px)`;
  return [section('netgraph-drawn', 'Netgraph', [note, NETGRAPH_NOTE].filter(Boolean).join(' '), drawn)];
};

const strip = (view, event) => {
  const { windows, period } = view.network, time = view.times.get(event), minutes = view.domains.get(event);
  const held = windows.has(event) ? ` · held ${windowText(windows.get(event), period)}` : '', at = time === undefined ? '' : ` at ${clock(time)}`;
  return element('div', { class: minutes.length ? 'limited' : 'limited alarm', 'data-domain': event }, element('span', {}, eventName(event) + at + held),
    element('span', {}, domainText(minutes, period)), stripPicture(view, event));
};

const limited = view => {
  const { events, period } = view.network, found = events.filter(event => view.domains.get(event).length < period);
  if (!found.length) return [];
  const note = `${counted(found.length)} of ${counted(events.length)} events can no longer be at every minute. Each strip is one period: blue is what single `
    + 'activities leave, a line is the working timetable’s time, a frame is what the event is held to. That a minute is left does not say that some timetable has it.';
  const left = elided(found.length, MOST_STRIPS, 'events');
  return [section('domains', 'When events can still be', [note, left].filter(Boolean).join(' '), ...found.slice(0, MOST_STRIPS).map(event => strip(view, event)))];
};

const saidText = () => `Times, possible minutes, slacks, violations and ${costName()} are replies of pespbench; names are those of the labels.`;

// All parts of the report.
export const reportOf = (view, report) => [summary(view, report), ...violated(view), ...netgraph(view),
  ...view.lines.length ? [section('lines', 'Lines', 'A framed minute is held. In the diagrams, stations are as far apart as trains need at least.', ...tablesOf(view, true))] : [],
  ...connectionTables(view), ...limited(view), ...kindTables(view), element('p', { class: 'quiet' }, saidText())];

// The report in this page; null if it is not a report.
export const reportGiven = () => {
  const text = find('given').textContent.trim();
  return text ? JSON.parse(text) : null;
};

// Shows it, until the reader wants to edit its network.
export const readReport = report => new Promise(done => {
  const view = viewOfReport(report), work = element('button', { class: 'main', id: 'work' }, 'Work on it');
  document.title = [report.title, 'pespbench'].filter(Boolean).join(' – ');
  find('printed').replaceChildren(element('p', { class: 'to-work' }, work, ' in this page, with all of the workbench.'), ...reportOf(view, report));
  document.body.classList.add('report');
  tellReady();
  work.addEventListener('click', () => {
    document.body.classList.remove('report', 'ready');
    find('printed').replaceChildren();
    done();
  });
});

// Opens the network of a report in the workbench.
export const openReport = report => {
  const { network, times, labels } = viewOfReport(report), { places } = display;
  openBase(baseOf(network, times), { title: report.title, labels, places });
};
