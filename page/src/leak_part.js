// What the listed runs tell, exactly, or all starts of a space: the classes, the chances of who guesses, and the limits
// beside it.

import { histogram } from './histogram.js';
import { leakNumbers, leakSentence, noLeakText } from './leak_text.js';
import { drawFreshness } from './freshness_part.js';
import { spaced } from './numbers.js';
import { listed, rangedText, startAt } from './space.js';
import { replaceStarts } from './starts_part.js';
import { $, answeredOf, calls, programNow, shown, spaceNow, state } from './state.js';
import { lookAtRun } from './time_part.js';

const MOST_LISTED = 100; // classes whose first starts are made runs

// The space of what is there, where the leak is of it.
const spaceOfLeak = () => (shown.leak?.isSpace && answeredOf.leak?.starts === state.starts ? spaceNow() : null);

/** The part with its numbers, or why there are none; nothing where the lab is not in the module. */
export function drawLeak() {
  const { leak } = shown, space = spaceOfLeak(), variables = programNow()?.variables ?? [];
  $('leak').hidden = calls.tool !== null && !calls.tool.has('lab');
  $('leak-note').dataset.says = noLeakText(shown);
  $('leak-shown').hidden = leak === null;
  $('leak-list').hidden = space === null;
  if (leak) {
    const startText = (number) => (space ? rangedText(space, startAt(space, variables, number)) : '')
      || `start ${spaced(number)}`;
    $('leak-sentence').textContent = leakSentence(leak);
    if (!leak.isSpace || space) $('leak-classes').innerHTML = histogram(leak, leak.isSpace ? startText : null);
    $('leak-numbers').innerHTML = leakNumbers(leak);
  }
  drawFreshness();
}

/** A class's first run, which can be looked at in the timeline; of a space, the first starts as runs. */
export function listenLeak() {
  $('leak-classes').addEventListener('click', ({ target }) => {
    if (target.dataset.first !== undefined) lookAtRun(Number(target.dataset.first) - 1);
  });
  $('leak-list').addEventListener('click', () => {
    const space = spaceOfLeak(), firsts = shown.leak.classes.slice(0, MOST_LISTED).map(({ first }) => first);
    if (space) replaceStarts(listed(space, programNow()?.variables ?? [], firsts));
  });
}
