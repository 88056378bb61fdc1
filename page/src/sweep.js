// The sweep: other first predictions in place of one mitigate's estimate, what each tells and what it costs.

import { at, ticks } from './axis.js';
import { classColour, escaped } from './colours.js';
import { counted, spaced } from './numbers.js';

/** First predictions from 1 to a power of two, eight to each doubling, and further ones. */
export function predictions(most, further = []) {
  const found = new Set(further.filter((n) => n >= 1));
  for (let k = 0; 2 ** (k / 8) <= most * 1.0001; k++) found.add(Math.round(2 ** (k / 8)));
  return [...found].sort((a, b) => a - b);
}

/** The least power of two that is at least a number. */
export function powerFrom(number) {
  return 2 ** Math.ceil(Math.log2(Math.max(number, 1)));
}

/** The first prediction from which on all tried ones leave one sequence, and the last one before it; or null. */
export function quietFrom(points) {
  const sorted = [...points].sort((a, b) => a.prediction - b.prediction);
  const loud = sorted.findLastIndex((point) => point.sequences > 1);
  if (loud === sorted.length - 1) return null;
  return { first: sorted[loud + 1], before: sorted[loud] ?? null };
}

/** Halves the gap below the first prediction from which on one sequence is left, until none is left. `point` tries a
    prediction and puts its point into `tried`; it gives null where not all runs halt, and then the
    half above is next. */
export async function halveGap(tried, point, isOld = () => false) {
  let unfinished = 0;
  for (let k = 0; k < 44; k++) {
    const quiet = quietFrom([...tried.values()]);
    if (!quiet?.before) return;
    const first = quiet.first.prediction, before = Math.max(quiet.before.prediction, unfinished);
    if (first - before < 2) return;
    const middle = Math.floor((first + before) / 2);
    if (!(await point(middle))) unfinished = middle;
    if (isOld()) return;
  }
}

/** For each number of sequences the prediction whose longest run is the shortest, the fewest sequences first. */
export function cheapest(points) {
  const best = new Map();
  for (const point of points) {
    const have = best.get(point.sequences);
    if (!have || point.longest < have.longest) best.set(point.sequences, point);
  }
  const found = [...best.values()].sort((a, b) => a.sequences - b.sequences);
  return found.filter((point, k) => found.slice(0, k).every((fewer) => fewer.longest > point.longest));
}

/** The sentence below the picture. `least` is the lab's least first prediction that no
    body of the only mitigate reaches, or null; `unfinished` says with how many predictions not all runs halt. */
export function sweepText(points, least, current, unfinished = 0) {
  const quiet = quietFrom(points);
  if (!quiet) {
    const fewest = Math.min(...points.map((point) => point.sequences));
    if (unfinished) {
      return `Each prediction that was tried, and with which all runs halt, leaves`
        + ` ${counted(fewest, 'sequence')} or more.`;
    }
    return `Each prediction that was tried leaves ${counted(fewest, 'sequence')} or more: another part of the`
      + ` program tells them apart.`;
  }
  const { first } = quiet;
  const from = quiet.before
    ? `From ${spaced(first.prediction)} on, the runs cannot be told apart${least === first.prediction ? ': that is'
      + ' one more than the longest body takes' : ', of the predictions that were tried'}.`
    : `With each prediction that was`
      + ` tried${unfinished ? ', and with which all runs halt,' : ''} the runs cannot be told apart.`;
  const now = points.find((point) => point.prediction === current);
  const cost = ` It costs ${counted(first.longest, 'cycle')}`;
  const tells = now?.sequences > 1 ? ` and tells ${counted(now.sequences, 'thing')}` : '';
  const other = now && now !== first ? `, where ${spaced(current)} costs ${spaced(now.longest)}${tells}` : '';
  return `${from}${cost}${other}.`;
}

const LEFT = 58, RIGHT = 24, TOP = 30, BOTTOM = 46, NARROW = 560;

// From which first prediction to which one nothing is told; null where to none. A point that is a choice has the last
// one with which nothing changes.
function quietSpan(points, most) {
  if (points.every(({ last }) => last === undefined)) {
    const quiet = quietFrom(points);
    return quiet && { from: quiet.before ? quiet.first.prediction : 1, to: most };
  }
  const quiet = points.find(({ sequences }) => sequences === 1);
  return quiet ? { from: quiet.prediction, to: Math.min(quiet.last, most) } : null;
}

/** The picture: first predictions from left to right to `most`, the longest run upwards, colours for numbers of
    sequences. */
export function sweepPicture(points, { width, high = 320, current = null, most = null }) {
  const sorted = [...points].sort((a, b) => a.prediction - b.prediction);
  const greatest = most ?? sorted.at(-1).prediction, doublings = Math.max(1, Math.log2(greatest));
  const top = Math.max(...sorted.map((point) => point.longest)) * 1.05, tall = high - TOP - BOTTOM;
  const x = (n) => LEFT + ((width - LEFT - RIGHT) * Math.log2(n)) / doublings;
  const y = (cycles) => TOP + tall * (1 - cycles / top);
  const out = [`<svg xmlns="http://www.w3.org/2000/svg" viewBox="0 0`
    + ` ${width} ${high}" width="${width}" height="${high}" font-size="12" font-family="system-ui, sans-serif"`
      + ` role="group" aria-label="Longest run against first prediction">`];
  const quiet = quietSpan(sorted, greatest);
  if (quiet) {
    const edge = x(quiet.from), wide = at(Math.max(x(quiet.to) - edge, 2));
    out.push(`<rect x="${at(edge)}" y="${TOP}" width="${wide}" height="${tall}" fill="var(--good-tint)"/>`);
    const fits = width - RIGHT - edge > 190;
    const says = width < NARROW ? 'nothing is told' : 'one sequence: nothing is told';
    out.push(`<text x="${at(fits ? edge + 8 : width - RIGHT)}" y="${TOP - 10}" fill="var(--good)" font-weight="600"`
      + ` text-anchor="${fits ? 'start' : 'end'}">${says}</text>`);
  }
  out.push('<g stroke="var(--line)">');
  const rows = ticks(0, top, 5);
  for (const cycles of rows) out.push(`<path d="M${LEFT} ${at(y(cycles))}H${width - RIGHT}"/>`);
  out.push('</g><g fill="var(--soft)">');
  for (const cycles of rows) {
    out.push(`<text x="${LEFT - 8}" y="${at(y(cycles) + 4)}" text-anchor="end">${spaced(cycles)}</text>`);
  }
  const step = Math.ceil((doublings * 46) / (width - LEFT - RIGHT));
  for (let k = 0; k <= doublings + 0.001; k += step) {
    out.push(`<text x="${at(x(2 ** k))}" y="${high - BOTTOM + 17}" text-anchor="middle">${spaced(2 ** k)}</text>`);
  }
  // the axis is named where there is more room beside the name of the present one
  const isLeft = current === null || x(current) > (LEFT + width - RIGHT) / 2;
  const [nameAt, anchor] = isLeft ? [LEFT, 'start'] : [width - RIGHT, 'end'];
  const name = width < NARROW ? 'first prediction' : 'first prediction, in cycles';
  out.push(`<text x="${nameAt}" y="${high - 8}" text-anchor="${anchor}">${name}</text>`);
  out.push(`<text x="8" y="${TOP - 10}">longest run, in cycles</text></g>`);
  if (current !== null && current <= greatest) {
    out.push(`<path d="M${at(x(current))} ${TOP}V${TOP + tall}" stroke="var(--ink)" stroke-dasharray="3 3"`
      + ` opacity=".7"/><text x="${at(x(current))}" y="${high - 8}" text-anchor="middle" fill="var(--ink)">now`
        + ` ${spaced(current)}</text>`);
  }
  for (const point of sorted) {
    const sequences = point.sequences === 1 ? 'one sequence' : counted(point.sequences, 'sequence');
    const from = point.shortest === point.longest ? '' : `${spaced(point.shortest)} to `;
    const text = point.says
      ?? `${spaced(point.prediction)}: ${sequences}, ${from}${counted(point.longest, 'cycle')}`;
    const place = at(x(point.prediction)), colour = classColour(point.sequences);
    out.push(`<g class="point"`
      + ` data-prediction="${point.prediction}" data-tip="${escaped(text)}" role="img" aria-label="${escaped(text)}">`);
    if (point.shortest !== point.longest) {
      const line = `M${place} ${at(y(point.longest))}V${at(y(point.shortest))}`;
      out.push(`<path d="${line}" stroke="${colour}" stroke-width="2"`
        + ` opacity=".5"/>`);
    }
    const round = Math.min((width < NARROW ? 1.5 : 3) + point.sequences, 9);
    out.push(`<circle cx="${place}" cy="${at(y(point.longest))}" r="${round}" fill="${colour}"/>`);
    out.push(point.sequences > 1 && width >= NARROW
      ? `<text x="${place}" y="${at(y(point.longest) - Math.min(6 + point.sequences, 12))}" text-anchor="middle"`
        + ` font-size="12" fill="var(--soft)">${point.sequences}</text></g>` : '</g>');
  }
  out.push('</svg>');
  return out.join('\n');
}

/** The points as a table, each with a button that takes its prediction. */
export function pointsTable(points) {
  const best = new Set(cheapest(points)), cell = (text) => `<td class="what">${text}</td>`;
  const rows = [...points].sort((a, b) => a.prediction - b.prediction).map((point) => {
    const numbers = [point.prediction, point.sequences, point.shortest, point.longest].map(
      (number) => cell(spaced(number)));
    const name = `Take the prediction ${spaced(point.prediction)}`;
    const take = `<button type="button" class="link"`
      + ` data-take="${point.prediction}" aria-label="${name}">Take</button>`;
    return `<tr>${numbers.join('')}${cell(best.has(point) ? 'no faster one tells as little' : '')}${cell(take)}</tr>`;
  });
  const heads = ['first prediction', 'sequences', 'shortest run', 'longest run', 'the fastest', 'use it'];
  const head = heads.map((text) => `<th scope="col">${text}</th>`).join('');
  return `<table><thead><tr>${head}</tr></thead><tbody>${rows.join('')}</tbody></table>`;
}
