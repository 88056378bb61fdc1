// The timeline: a lane a run over one axis of cycles, as SVG.

import { at, ticks } from './axis.js';
import { classColour, classMark, escaped } from './colours.js';
import { counted, spaced } from './numbers.js';

const RIGHT = 20, TOP = 26, BOTTOM = 34, NARROW = 560;
const MOST_MARKS = 4000;
// a mark that stands out from what is below it
const EDGED = 'stroke="var(--card)" stroke-width="2" paint-order="stroke"';
const leftOf = (width) => (width < NARROW ? 46 : 92);
const laneOf = (count) => (count <= 16 ? 30 : count <= 40 ? 22 : 17);

/** The greatest cycle of runs. */
export function lastCycle(runs) {
  return Math.max(1, ...runs.map((run) => run.end));
}

/** The view of all cycles of runs: from, to. Behind the last one there is room for what is written beside it. */
export function wholeView(runs) {
  const last = lastCycle(runs);
  return [0, last + Math.max(4, last / 3)];
}

/** A view made narrower or wider about a cycle, within the whole one. */
export function zoomed([from, to], about, factor, whole) {
  const length = Math.min(Math.max((to - from) * factor, 8), whole[1] - whole[0]);
  const share = (about - from) / (to - from);
  const begin = Math.min(Math.max(about - share * length, whole[0]), whole[1] - length);
  return [begin, begin + length];
}

/** A view moved by cycles, within the whole one. */
export function moved([from, to], by, whole) {
  const begin = Math.min(Math.max(from + by, whole[0]), whole[1] - (to - from));
  return [begin, begin + (to - from)];
}

/** The cycle that stands at a place of a picture of a width. */
export function cycleAt(x, width, [from, to]) {
  const left = leftOf(width);
  return from + ((x - left) * (to - from)) / (width - left - RIGHT);
}

/** Where the predictions of a mitigation ended, missed ones first: begin + predicts, then each time twice as long. */
export function predictionEnds(mitigation) {
  const missed = mitigation.missesAfter === null ? 0 : mitigation.missesAfter - mitigation.misses;
  const ends = [];
  for (let k = 0; k <= missed; k++) ends.push(mitigation.begin + mitigation.predicts * 2 ** k);
  return ends;
}

const times = (mitigation) => mitigation.missesAfter - mitigation.misses;

/** What a mitigation did, in words. */
export function mitigationText(mitigation) {
  const where = `mitigate at ${mitigation.place}, level ${mitigation.level}`;
  if (mitigation.end === null) return `${where}: began at ${spaced(mitigation.begin)}, not ended`;
  const { begin, end, worked, predicts } = mitigation, count = times(mitigation);
  const missed = count ? `; ${counted(count, 'prediction')} missed, from ${spaced(predicts)} on` : '';
  const waited = `waited ${spaced(end - begin - worked)} to ${spaced(end)}`;
  return `${where}: worked ${counted(worked, 'cycle')} from ${spaced(begin)}, ${waited}${missed}`;
}

/** What is seen of a run, in words. */
export function runText(run, number) {
  const seen = run.events.filter((assignment) => assignment.isSeen);
  const list = seen.slice(0, 8)
    .map((assignment) => `${assignment.variable} = ${assignment.value} at ${spaced(assignment.cycle)}`).join(', ');
  const more = seen.length > 8 ? ` and ${seen.length - 8} more` : '';
  const end = run.halted ? `ends at cycle ${spaced(run.end)}` : `not ended at cycle ${spaced(run.end)}`;
  return `Run ${number}, class ${run.class}: ${seen.length ? `seen ${list}${more}` : 'nothing is seen'}; ${end}`;
}

/** The picture of runs, each with its number and class. `first` is the number of the first one. */
export function timeline(runs, { width, view, first = 1 }) {
  const lane = laneOf(runs.length), size = lane / 30, font = lane < 20 ? 12 : 13;
  const [from, to] = view, high = TOP + lane * runs.length, isNarrow = width < NARROW, left = leftOf(width);
  const x = (cycle) => left + ((width - left - RIGHT) * (cycle - from)) / (to - from);
  const isIn = (cycle) => cycle >= from && cycle <= to;
  const out = [];
  const tip = (text) => `data-tip="${escaped(text)}"`;
  const extent = `viewBox="0 0 ${width} ${high + BOTTOM}" width="${width}" height="${high + BOTTOM}"`;
  const name = `role="group" aria-label="Timeline of ${counted(runs.length, 'run')}"`;
  out.push(`<svg xmlns="http://www.w3.org/2000/svg" ${extent} font-size="${font}"`
    + ` font-family="system-ui, sans-serif" ${name}>`);
  out.push(`<defs><pattern id="wait" width="6" height="6" patternUnits="userSpaceOnUse"`
    + ` patternTransform="rotate(45)"><rect width="6" height="6" fill="var(--code)"/>`
      + `<path d="M0 0V6" stroke="var(--soft)" stroke-width="1.8"/></pattern>`);
  out.push(`<clipPath id="axis">`
    + `<rect x="${left}" y="0" width="${width - left - RIGHT}" height="${high + BOTTOM}"/></clipPath></defs>`);
  out.push(`<g stroke="var(--line)">`);
  const marks = ticks(from, to, Math.max(2, Math.floor(width / (isNarrow ? 80 : 110))));
  for (const cycle of marks) out.push(`<path d="M${at(x(cycle))} ${TOP - 6}V${high}"/>`);
  out.push(`</g><g fill="var(--soft)" text-anchor="middle" font-size="12">`);
  for (const y of runs.length > 12 ? [TOP - 10, high + 17] : [high + 17]) {
    for (const cycle of marks) out.push(`<text x="${at(x(cycle))}" y="${y}">${spaced(cycle)}</text>`);
  }
  out.push(`</g><text x="${left}" y="${high + 31}" fill="var(--soft)" font-size="12">cycles</text>`);
  runs.forEach((run, k) => drawLane(run, k));
  out.push('</svg>');
  return out.join('\n');

  function drawLane(run, k) {
    const y = TOP + lane * k, middle = y + lane / 2, colour = classColour(run.class);
    out.push(`<g class="lane" tabindex="-1"`
      + ` data-run="${first + k}" role="img" aria-label="${escaped(runText(run, first + k))}">`);
    out.push(`<rect class="track" x="0" y="${y}" width="${width}" height="${lane}" fill="transparent"/>`);
    out.push(`<text x="6" y="${middle + 4.5}" fill="var(--ink)">${isNarrow ? '' : 'run '}${first + k}</text>`);
    out.push(classMark(run.class, left - 18, middle, 4.6 * Math.max(size, 0.75)));
    out.push(`<g clip-path="url(#axis)">`);
    out.push(`<path d="M${at(x(Math.max(0, from)))} ${middle}H${at(x(Math.min(run.end, to)))}" stroke="var(--soft)"`
      + ` stroke-width="1.2" opacity=".7"/>`);
    for (const mitigation of run.mitigations ?? []) bar(mitigation, run, y, middle);
    unseen(run, middle);
    out.push(end(run, middle), '</g>');
    seen(run, y, middle, colour);
    out.push('</g>');
  }

  function bar(mitigation, run, y, middle) {
    const end = mitigation.end ?? run.end,
      worked = mitigation.end === null ? end : mitigation.begin + mitigation.worked;
    if (end < from || mitigation.begin > to) return;
    const half = Math.max(2.5, (8 - 2 * mitigation.depth) * size), begin = x(mitigation.begin);
    const text = mitigationText(mitigation);
    const box = (left, right) =>
      `<rect x="${at(left)}" y="${middle - half}" width="${at(right - left)}" height="${2 * half}"`;
    out.push(`<g ${tip(text)}>${box(begin, x(worked))} rx="2" fill="var(--work)"/>`);
    if (end > worked) {
      out.push(`${box(x(worked), x(end))} rx="2" fill="url(#wait)" stroke="var(--soft)" stroke-width=".6"/>`);
    }
    out.push('</g>');
    if (mitigation.end === null) return;
    const ends = predictionEnds(mitigation);
    let last = -99;
    ends.forEach((cycle, k) => {
      const place = x(cycle), isMiss = k < ends.length - 1;
      if (!isIn(cycle) || (isMiss && place - last < 4)) return;
      const length = mitigation.predicts * 2 ** k, cross = 3 * Math.max(size, 0.75);
      const what = isMiss ? `the prediction of ${spaced(length)} was missed at ${spaced(cycle)}`
        : `the prediction of ${spaced(length)} held, to ${spaced(cycle)}`;
      const across = 2 * cross, from = `M${at(place - cross)} ${middle - cross}`;
      const d = isMiss && place - last >= 9 ? `${from}l${across} ${across}m0 ${-across}l${-across} ${across}` : '';
      last = place;
      out.push(`<g ${tip(what)}><path d="M${at(place)} ${y}V${y + lane}" stroke="transparent" stroke-width="6"/>`
        + `<path d="M${at(place)} ${y}V${y + lane}" stroke="var(--soft)" stroke-dasharray="2`
          + ` 3"/>${d && `<path d="${d}" stroke="var(--card)" stroke-width="3.4" fill="none"/>`
            + `<path d="${d}" stroke="var(--ink)" stroke-width="1.6" fill="none"/>`}</g>`);
    });
  }

  function unseen(run, middle) {
    let count = 0, last = -9;
    const isWorked = (cycle) =>
      run.mitigations?.some((mitigation) => mitigation.begin < cycle
        && cycle <= (mitigation.worked === null ? run.end : mitigation.begin + mitigation.worked));
    for (const assignment of run.events) {
      if (assignment.isSeen || !isIn(assignment.cycle)) continue;
      const place = x(assignment.cycle);
      if (place - last < 2 || ++count > MOST_MARKS) continue; // what stands on one point is drawn once
      last = place;
      const text = `${assignment.variable} = ${assignment.value} at ${spaced(assignment.cycle)}, not seen by the`
        + ` observer`;
      const stroke = (half) => `<path d="M${at(place)} ${at(middle - half * size)}v${at(2 * half * size)}"`;
      const colour = `var(--${isWorked(assignment.cycle) ? 'card' : 'soft'})`;
      out.push(`<g ${tip(text)}>${stroke(7)} stroke="transparent" stroke-width="8"/>`
        + `${stroke(4)} stroke="${colour}" stroke-width="1.4"/></g>`);
    }
  }

  function end(run, middle) {
    if (!isIn(run.end)) return '';
    const place = x(run.end), what = run.halted ? `ends at ${spaced(run.end)}` : `not ended at ${spaced(run.end)}`;
    const d = run.halted ? `M${at(place)} ${middle - 6}v12` : `M${at(place - 4)} ${middle - 5}l5 5l-5 5`;
    return `<g ${tip(what)}><path d="${d}" stroke="var(--soft)" stroke-width="2" fill="none"/></g>`;
  }

  function seen(run, y, middle, colour) {
    const shown = run.events.filter((assignment) => assignment.isSeen && isIn(assignment.cycle));
    let last = -9, count = 0;
    shown.forEach((assignment, k) => {
      const place = x(assignment.cycle);
      if (place - last < 1.5 || ++count > MOST_MARKS) return;
      last = place;
      const text = `${assignment.variable} = ${assignment.value}`,
        label = isNarrow ? `@${assignment.cycle}` : `${text} @${assignment.cycle}`;
      const next = k + 1 < shown.length ? x(shown[k + 1].cycle) : width;
      const room = label.length * 0.67 * font + 18;
      const isRight = place + room <= Math.min(next, width),
        isLeft = k === 0 && shown.length === 1 && place - room > left;
      out.push(`<g ${tip(`${text} at ${spaced(assignment.cycle)}, seen by the observer`)}>`);
      out.push(classMark(run.class, place, middle, 5.4 * Math.max(size, 0.75), EDGED));
      if (isRight || isLeft) {
        const wide = label.length * 0.58 * font + 6;
        const [boxAt, textAt, anchor] = isRight ? [place + 8, place + 10, 'start']
          : [place - 8 - wide, place - 10, 'end'];
        const top = at(middle - 0.62 * font), high = at(1.24 * font);
        out.push(`<rect x="${at(boxAt)}" y="${top}" width="${at(wide)}" height="${high}"`
          + ' rx="2" fill="var(--card)" opacity=".86"/>');
        out.push(`<text x="${at(textAt)}" y="${middle + 4.5}" text-anchor="${anchor}" fill="${colour}"`
          + ` font-weight="600" stroke="var(--card)" stroke-width="3" paint-order="stroke">${escaped(label)}</text>`);
      }
      out.push('</g>');
    });
  }
}
