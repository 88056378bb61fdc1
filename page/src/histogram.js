// The classes of runs as a histogram, as HTML: a bar a class, as long as it has runs.

import { at } from './axis.js';
import { classColour, classMark, escaped } from './colours.js';
import { counted, spaced } from './numbers.js';
import { seenTexts } from './seen.js';

/** How many classes are drawn. */
export const MOST_CLASSES = 100;

/** A bar that takes a share, from 0 to 1, of its box. */
export function bar(share, fill) {
  const width = `${at(100 * share)}%`;
  return '<svg class="bar" width="100%" height="14" aria-hidden="true">'
    + `<rect width="100%" height="14" rx="2" fill="var(--code)"/><rect width="${width}" height="14" rx="2"`
    + ` fill="${fill}"/></svg>`;
}

function classRow({ size, first }, number, greatest, seen, startText) {
  const mark = `<svg width="12" height="12" viewBox="0 0 12 12" aria-hidden="true">`
    + `${classMark(number, 6, 6, 4.4)}</svg>`;
  const what = startText ? 'the first start' : `run ${first}, the first one`;
  const look = `<button type="button" class="link" data-first="${startText ? number : first}"`
    + ` aria-label="Look at ${what} of class ${number}">`
    + `${startText ? escaped(startText(first)) : `run ${spaced(first)}`}</button>`;
  const cells = [counted(size, startText ? 'start' : 'run'), look].map((text) => `<td class="what">${text}</td>`);
  return `<tr><th scope="row">${mark}${number}</th>`
    + `<td class="bar-cell">${bar(size / greatest, classColour(number))}</td>${cells.join('')}`
    + `<td>${escaped(seen)}</td></tr>`;
}

/** The histogram of the classes of a leak. Of starts of a space `startText` has the words for the one with a
    number. */
export function histogram({ classes, greatest }, startText = null) {
  const drawn = classes.slice(0, MOST_CLASSES), runs = classes.map(({ events }, k) => ({
    class: k + 1, events: events.map((event) => ({ ...event, isSeen: true })),
  }));
  const texts = seenTexts(runs);
  const rows = drawn.map((part, k) => classRow(part, k + 1, greatest, texts[k], startText));
  const many = `how many ${startText ? 'starts' : 'runs'}`;
  const heads = ['class', many, '<span class="unseen">number</span>', 'first', 'what is seen'];
  const rest = classes.length > drawn.length
    ? `<p class="hint">${spaced(drawn.length)} of ${spaced(classes.length)} classes are drawn here; the command line`
      + ' tells all.</p>'
    : '';
  const head = heads.map((text) => `<th scope="col">${text}</th>`).join('');
  return `<table class="classes"><thead><tr>${head}</tr></thead><tbody>${rows.join('')}</tbody></table>${rest}`;
}
