// The places of minutes and stations in a distance-time diagram, and the parts that all trains share.

import { drawing } from '../base/elements.js';
import { clock, labelOf, shortText, stepOf } from '../session/names.js';

const RIGHT = 16, TOP = 34, BOTTOM = 26, LEAST_HEIGHT = 190, TRACK = 48, CLOSE = 22, LEAST_SEEN = 90, MOST_LETTERS = 120;
// The width of station names, and their most letters: less if there is little room.
const NARROW = 600, ROOMS = [{ left: 78, letters: 9 }, { left: 110, letters: 14 }];

// How far beyond its station a turning train is drawn.
export const TURN = 13;

// The size of a drawing on paper, which is as high as its line needs and shows one period.
const PAPER = Object.freeze({ width: 880, height: 0, minutes: null });

// The least minutes of a run between each two neighbours, and 1 if it may take none.
export const lengthsOf = (lines, network) => {
  const lengths = new Map();
  for (const train of lines.flatMap(line => line.trains)) {
    train.steps.forEach((step, place) => {
      const ends = [train.events[place], train.events[place + 1]].map(event => labelOf(event).station);
      if (ends[0] === ends[1]) return;
      const track = trackOf(...ends), { lower } = network.activities.get(step);
      lengths.set(track, Math.min(lengths.has(track) ? lengths.get(track) : Infinity, Math.max(1, lower)));
    });
  }
  return lengths;
};

// A track by the names of its two ends.
export const trackOf = (one, other) => JSON.stringify(one < other ? [one, other] : [other, one]);

// The places of minutes and stations, how many minutes each station is from the first, and the drawn events, without the steps of
// trains in `away`.
export const frameOf = (line, network, { width, height, minutes } = PAPER) => {
  const lengths = lengthsOf([line], network), { period } = network, reached = [0], { first, count } = minutes || { first: 0, count: period };
  line.stations.slice(1).forEach((station, place) => {
    reached.push(reached[place] + (lengths.get(trackOf(line.stations[place], station)) || 4));
  });
  const tracks = line.stations.length - 1, most = reached[reached.length - 1] || 1, { left, letters } = ROOMS[Number(width >= NARROW)], right = width - RIGHT;
  const high = height ? Math.max(LEAST_SEEN, CLOSE * tracks, height - TOP - BOTTOM) : Math.max(LEAST_HEIGHT, TRACK * tracks);
  const heights = new Map(line.stations.map((station, place) => [station, TOP + high * reached[place] / most]));
  return {
    line, period, first, count, heights, reached, width, letters, left, right, top: TOP, bottom: TOP + high, x: minute => left + (right - left) * (minute - first) / count,
    events: new Set(line.trains.flatMap(train => train.events)), away: new Set(),
  };
};

// A minute in each period that is shown.
export const copiesOf = ({ first, count, period }, minute) => {
  const copies = [];
  for (let at = minute + Math.ceil((first - minute) / period) * period; at < first + count; at += period) copies.push(at);
  return copies;
};

// The place of a drawing's minutes on the screen.
export const minutesOn = page => {
  const [clip] = page.querySelectorAll('svg'), { left, width } = page.getBoundingClientRect(), scale = width / page.viewBox.baseVal.width;
  const [x, wide] = ['x', 'width'].map(name => scale * Number(clip.getAttribute(name)));
  return { left: left + x, width: wide };
};

export const heightOf = (frame, event) => frame.heights.get(labelOf(event).station);

// The attributes of a named drawing, and of its part with the trains.
export const looksOf = (frame, name) => {
  const { left, right } = frame, place = { x: left, y: TOP - TURN - 4, width: right - left, height: frame.bottom - TOP + 2 * TURN + 8 };
  return {
    page: { viewBox: `0 0 ${frame.width} ${frame.bottom + BOTTOM}`, role: 'img', 'aria-label': name },
    clip: { ...place, viewBox: Object.values(place).join(' ') },
  };
};

// A drawing with its grid and its name, and its part with the trains.
export const sheetOf = (frame, name) => {
  const looks = looksOf(frame, name), clip = drawing('svg', looks.clip), page = drawing('svg', looks.page, ...gridOf(frame), clip);
  return { page, clip };
};

export const gridOf = frame => {
  const { first, count, period, left, right } = frame, made = [], step = stepOf(count, period, (right - left) / (period > 60 ? 60 : 36));
  for (let minute = Math.ceil(first / step) * step; minute <= first + count; minute += step) {
    const look = minute % period || minute === first ? 'minute' : 'minute period';
    made.push(drawing('path', { class: look, d: `M${frame.x(minute)} ${TOP - 4}V${frame.bottom + 4}` }));
    made.push(drawing('text', { class: 'axis', x: frame.x(minute), y: TOP - 20, 'text-anchor': 'middle' }, clock(minute % period)));
  }
  for (const [station, y] of frame.heights) {
    made.push(drawing('path', { class: 'station', d: `M${left} ${y}H${right}` }));
    made.push(drawing('text', { ...placeOf(frame, station, y), 'data-station': station }, shortText(station, MOST_LETTERS)));
  }
  return made;
};

// The place of a station's name: beside its line, or above it if it is too long for that.
const placeOf = ({ left, letters }, station, y) =>
  station.length <= letters ? { x: left - 10, y: y + 4, 'text-anchor': 'end' } : { class: 'long', x: 2, y: y - 5 };

// The path through minutes and heights, once for each period in which part of it is visible.
export const pathsOf = (frame, points) => {
  const minutes = points.map(([minute]) => minute), { period, first, count } = frame, made = [], least = Math.min(...minutes);
  for (let shift = Math.ceil((first - Math.max(...minutes)) / period) * period; shift + least < first + count; shift += period) {
    made.push(`M${points.map(([minute, y]) => `${frame.x(minute + shift).toFixed(1)} ${y.toFixed(1)}`).join('L')}`);
  }
  return made;
};

export const waysOf = (frame, points, color, width, dashes = null) => pathsOf(frame, points).map(d => {
  const look = { fill: 'none', stroke: color, 'stroke-width': width, 'stroke-dasharray': dashes, 'stroke-linejoin': 'round' };
  return drawing('path', { d, ...look });
});
