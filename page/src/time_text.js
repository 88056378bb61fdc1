// What stands about the timeline, as HTML: its legend, the turning of pages, and what each mitigate of the text did.

import { classMark } from './colours.js';
import { placeButton } from './marks.js';
import { counted, spaced } from './numbers.js';

/** How many runs are drawn at once. */
export const LANES = 100;

/** What a mitigate of the text did in all runs, in words. */
export function mitigateText(mitigate) {
  const { place, ended, shortest, longest, missed, least } = mitigate;
  const worked = `${shortest === longest ? '' : `${spaced(shortest)} to `}${counted(longest, 'cycle')}`;
  const misses = missed ? `${spaced(missed)} of ${spaced(ended)} missed` : 'none missed';
  return `The mitigate at ${placeButton(place)} worked ${worked}; ${misses}. From a first prediction of`
    + ` <b>${spaced(least)}</b> on none of these runs would miss.`;
}

/** The buttons that turn pages of `count` runs, of which `drawn` from `first` on, from 0, are drawn. */
export function pagesText(count, first, drawn, isAll) {
  const pages = Math.ceil(count / LANES), page = Math.floor(first / LANES);
  const turn = (by, text, isEnd) =>
    `<button type="button" class="link" data-page="${by}"${isEnd ? ' disabled' : ''}>${text}</button>`;
  const range = `runs ${first + 1} to ${first + drawn} of ${spaced(count)}`;
  const turns = pages < 2 ? ''
    : `${turn(-1, 'Earlier runs', page === 0)}${range}${turn(1, 'Later runs', page === pages - 1)}`;
  return turns + (isAll ? '' : '<button type="button" class="link" data-all>Draw all runs</button>');
}

/** What the marks of the timeline mean. */
export function timeLegend(runs, { hasLab, hasMitigates }) {
  const legend = ['<span>one lane a run, cycles from left to right</span>'];
  const swatch = (fill, more = '') => '<svg width="26" height="11" aria-hidden="true">'
    + `<rect width="26" height="11" rx="2" fill="${fill}"${more}/></svg>`;
  if (runs.some((run) => run.mitigations?.length)) {
    legend.push(`<span>${swatch('var(--work)')}a mitigate’s body works</span>`);
    legend.push(`<span>${swatch('url(#wait)', ' stroke="var(--soft)"'
      + ' stroke-width=".6"')}waits until its prediction is over</span>`);
    legend.push('<span>┆ where predictions end, × missed</span>');
  } else if (!hasLab && hasMitigates) {
    legend.push('<span>The begins and ends of mitigations are not in this module’s answers, and so not drawn.</span>');
  }
  const shapes = [1, 2, 3].map(
    (k) => `<svg width="12" height="12" viewBox="0 0 12 12" aria-hidden="true">${classMark(k, 6, 6, 4.4)}</svg>`);
  legend.push(`<span>${shapes.join('')}seen by the observer; runs of one colour, shape and number look alike</span>`);
  return legend.join('');
}
