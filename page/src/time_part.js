// The timeline: which runs and which cycles of them are drawn, and the run that is looked at.

import { drawCosts } from './costs_part.js';
import { saveSvg } from './saving.js';
import { spaced } from './numbers.js';
import { isOnlyRefused } from './steady_part.js';
import { drawStep, goBy } from './steps_part.js';
import { $, answeredOf, calls, mitigatesNow, shown, starts } from './state.js';
import { LANES, mitigateText, pagesText, timeLegend } from './time_text.js';
import { cycleAt, moved, runText, timeline, wholeView, zoomed } from './timeline.js';

const lanesWidth = () => Math.max($('lanes').clientWidth - 2, 280);

const FIRSTS = 'Of each class of the space’s starts the run of the first one.';

// What stands in place of the lanes where there are no runs to draw.
function placeholder() {
  const kind = answeredOf.verdict ? shown.verdict?.kind : null;
  const words = {
    refused: isOnlyRefused() ? 'This program is constant in time: whatever is secret, the observer sees the same at the'
      + ' same cycles.' : 'There are no runs of this refused program.',
    syntax: 'Runs are drawn here once there is a program.',
  };
  return `<p class="empty">${words[kind] ?? ''}</p>`;
}

/** The lanes, with what stands about them; where there are no runs, why. */
export function drawTime() {
  const { runs } = shown, box = $('lanes');
  drawStep();
  for (const id of ['zoom-in', 'zoom-out', 'zoom-all', 'time-save']) $(id).disabled = !runs;
  if (!runs) {
    box.innerHTML = placeholder();
    for (const id of ['time-note', 'lane-says', 'time-legend']) $(id).innerHTML = '';
    $('lane-pages').hidden = true;
    return;
  }
  shown.view ??= wholeView(runs);
  const first = shown.page * LANES, part = runs.slice(first, first + LANES);
  box.innerHTML = timeline(part, { width: lanesWidth(), view: shown.view, first: first + 1 });
  const count = starts().runs?.length ?? runs.length, hasAll = shown.isAll || shown.listed !== null;
  $('time-note').textContent = shown.listed ? FIRSTS
    : shown.isAll ? '' : `The first ${spaced(runs.length)} of ${spaced(count)} runs.`;
  $('lane-pages').hidden = runs.length <= LANES && hasAll;
  $('lane-pages').innerHTML = pagesText(runs.length, first, part.length, hasAll);
  $('time-legend').innerHTML =
    timeLegend(runs, { hasLab: calls.tool.has('lab'), hasMitigates: mitigatesNow().length > 0 });
  const told = (shown.mitigates ?? []).filter((mitigate) => mitigate.ended).map(mitigateText);
  $('lane-says').innerHTML = [...(isOfRefused() ? [REFUSED] : []), ...told].join('<br>');
}

const REFUSED = 'The rules refuse this program. These are its runs by its least labels, and no limit holds of them.';
const isOfRefused = () => shown.verdict?.kind === 'refused' && answeredOf.runs?.program === answeredOf.verdict?.program;

function zoom(factor, about) {
  if (!shown.runs) return;
  const whole = wholeView(shown.runs);
  shown.view = zoomed(shown.view, about ?? middleOfSeen(), factor, whole);
  redraw();
}

// The middle one of what is seen within the view, or else the view's middle.
function middleOfSeen() {
  const [from, to] = shown.view, isWithin = (event) => event.isSeen && event.cycle >= from && event.cycle <= to;
  const seen = shown.runs.flatMap((run) => run.events.filter(isWithin).map((event) => event.cycle))
    .sort((a, b) => a - b);
  return seen[Math.floor(seen.length / 2)] ?? (from + to) / 2;
}

let frame = 0;

/** Draws the lanes again with the next frame, where they were scrolled to. */
export function redraw() {
  cancelAnimationFrame(frame);
  frame = requestAnimationFrame(() => {
    const { scrollTop } = $('lanes');
    drawTime();
    $('lanes').scrollTop = scrollTop;
    pickLane(shown.lane, false);
  });
}

/** Marks a run, from 0 on, in the lanes and in the table; where it `says` so, its words stand below the lanes. */
export function pickLane(number, says = true) {
  for (const lit of $('lanes').querySelectorAll('.lane.on')) lit.classList.remove('on');
  for (const lit of $('starts-table').querySelectorAll('tr.on')) lit.classList.remove('on');
  if (!shown.runs || number < 0 || number >= shown.runs.length) return;
  shown.lane = number;
  const lane = $('lanes').querySelector(`.lane[data-run="${number + 1}"]`);
  lane?.classList.add('on');
  $('starts-table').querySelector(`tr[data-run="${number}"]`)?.classList.add('on');
  if (says) {
    lane?.scrollIntoView({ block: 'nearest' });
    $('lane-says').textContent = $('announce').textContent = runText(shown.runs[number], number + 1);
    drawCosts();
    drawStep();
  }
}

/** Looks at a run, from 0 on, on whichever page of lanes it stands. */
export function lookAtRun(number) {
  if (!shown.runs || number >= shown.runs.length) return;
  shown.page = Math.floor(number / LANES);
  drawTime();
  pickLane(number);
}

/** What a person does with the lanes. `ask` asks for all runs, where some are not drawn. */
export function listenTime(ask) {
  const lanes = $('lanes');
  $('zoom-in').addEventListener('click', () => zoom(0.5));
  $('zoom-out').addEventListener('click', () => zoom(2));
  $('zoom-all').addEventListener('click', showAll);
  $('time-save').addEventListener('click', () => saveSvg(lanes, 'timeline.svg'));
  lanes.addEventListener('keydown', onKey);
  lanes.addEventListener('wheel', (event) => {
    if (!event.ctrlKey || !shown.runs) return;
    event.preventDefault();
    const x = event.clientX - lanes.getBoundingClientRect().left + lanes.scrollLeft;
    zoom(event.deltaY > 0 ? 1.25 : 0.8, cycleAt(x, lanesWidth(), shown.view));
  }, { passive: false });
  listenDrag(lanes);
  lanes.addEventListener('mouseover', (event) => {
    const lane = event.target.closest('.lane');
    for (const lit of $('starts-table').querySelectorAll('tr.on')) lit.classList.remove('on');
    if (lane) $('starts-table').querySelector(`tr[data-run="${Number(lane.dataset.run) - 1}"]`)?.classList.add('on');
  });
  $('lane-pages').addEventListener('click', (event) => {
    const { page, all } = event.target.dataset;
    if (page !== undefined) {
      shown.page += Number(page);
      redraw();
    }
    if (all !== undefined) {
      shown.mostRuns = Infinity;
      ask();
    }
  });
}

function showAll() {
  shown.view = null;
  redraw();
}

function move(by) {
  shown.view = moved(shown.view, by, wholeView(shown.runs));
  redraw();
}

function onKey(event) {
  if (!shown.runs || event.ctrlKey || event.metaKey || event.altKey) return;
  const step = (shown.view[1] - shown.view[0]) / 6;
  const keys = {
    '+': () => zoom(0.5),
    '=': () => zoom(0.5),
    '-': () => zoom(2),
    0: showAll,
    ArrowLeft: () => move(-step),
    ArrowRight: () => move(step),
    ArrowDown: () => pickLane(Math.min(shown.lane + 1, shown.runs.length - 1)),
    ArrowUp: () => pickLane(Math.max(shown.lane - 1, 0)),
    '.': () => goBy(1),
    ',': () => goBy(-1),
  };
  if (!keys[event.key]) return;
  event.preventDefault();
  keys[event.key]();
}

function listenDrag(lanes) {
  let drag = null;
  lanes.addEventListener('pointerdown', (event) => {
    if (event.pointerType === 'mouse' && event.button === 0 && shown.runs) {
      drag = { x: event.clientX, view: shown.view };
    }
  });
  window.addEventListener('pointermove', (event) => {
    if (!drag) return;
    const perPixel = cycleAt(1, lanesWidth(), drag.view) - cycleAt(0, lanesWidth(), drag.view);
    shown.view = moved(drag.view, (drag.x - event.clientX) * perPixel, wholeView(shown.runs));
    redraw();
  });
  window.addEventListener('pointerup', () => { drag = null; });
}
