// Whether a program is constant in time, as HTML: what a yes is worth, and what a no goes by.

import { escaped } from './colours.js';
import { labelText, placeText } from './marks.js';
import { spaced } from './numbers.js';

const WORTH = 'Starts that agree at or below it show this observer one sequence, up to each cycle, whether or not the'
  + ' runs have halted: in flat, part, part2 and every other environment that keeps the laws. No mitigate is needed.';
const REFUSED = 'The rules refuse it all the same: after an assignment to a secret variable they count time as secret.'
  + ' That refusal is no leak.';
const NO_LEAK = 'A no is no leak: it is not known that no secret changes what is seen, or when.';

/** Whether an answer is a yes that says something: the observer sees something, and not all. */
export const isSteady = (steady) => steady?.kind === 'yes' && steady.sees > 0 && steady.sees < steady.of;

const button = (place, words, name) =>
  `<button type="button" class="place" data-place="${place}" aria-label="${escaped(name)}">${escaped(words)}</button>`;

// What may differ, in words, by the reason of a no.
const REASONS = {
  guard: (at, by) => `the guard at ${at} goes by ${by}`,
  index: (at, by) => `which element is read or assigned at ${at} goes by ${by}, and with it what the caches hold`,
  operand: (at, by) => `a side of the product at ${at} goes by ${by}, and a product takes longer where a side is not`
    + ' from −32\u202f768 to 32\u202f767',
  sleep: (at, by) => `how long the sleep at ${at} lasts goes by ${by}`,
  estimate: (at, by) => `the estimate at ${at} goes by ${by}, and with it how long its mitigate lasts`,
  assigned: (at, by, to) => `what is assigned at ${at} goes by ${by}, and ${to} sees it`,
};
const MENDS = {
  guard: 'Go on to the end whatever is found, and choose by arithmetic in place of a branch.',
  index: 'Read every element, and keep the one that is wanted.',
  operand: 'Choose by division, or multiply by a comparison.',
  sleep: 'Sleep for as long as is public.',
};

// The variable that is to blame, which leads to where it is declared.
function blameText({ variable, isDeclared, from }, labels, declaredAt) {
  if (!variable) return labelText(from, labels);
  const place = declaredAt && placeText(declaredAt);
  const name = place ? button(place, variable, `${variable}, declared at ${place}`)
    : `<code>${escaped(variable)}</code>`;
  return `${name}, which ${isDeclared ? 'is declared' : 'has to be'} ${labelText(from, labels)}`;
}

/** A no in a sentence. `declaredAt` is the place of the variable that is to blame, where that is known. */
export function noText(steady, labels, declaredAt = null) {
  const { reason, place, from, to } = steady, at = placeText(place), { [reason]: says } = REASONS;
  const go = button(at, at, `Go to ${at}, which may let a secret change what is seen, or when`);
  if (says) return `${says(go, blameText(steady, labels, declaredAt), labelText(to, labels))}.`;
  const what = `what environments keep for ${labelText(from, labels)} need not agree`;
  return reason === 'read label' ? `the command at ${go} has a read label, and ${what}.`
    : `${escaped(reason)} at ${go}.`;
}

// Of the end of runs, which is asked for by itself.
function endText({ end }, labels) {
  if (end.kind === 'yes') return 'They end at one cycle, too.';
  return end.kind === 'no' ? `When they end is not known to be one cycle: ${noText(end, labels)}` : '';
}

function yesText(steady, isRefused, labels) {
  const { observer, sees, of } = steady, who = labelText(observer, labels);
  const seen = `It sees ${spaced(sees)} of ${spaced(of)} variables.`;
  if (sees === 0) {
    return `<p class="judgement">A yes that says nothing, for an observer at ${who}</p><p class="word">${seen} Labels`
      + ' that are left out are the least ones that the rules allow: write the label of what is to be seen.</p>';
  }
  if (sees === of) {
    return `<p class="judgement">A yes that says little, for an observer at ${who}</p><p class="word">It sees all`
      + ` ${spaced(of)} variables, so none is secret to it.</p>`;
  }
  const more = isRefused ? `<p class="word">${REFUSED}</p>` : '';
  return `<p class="judgement yes">✓ Yes, for an observer at ${who}</p>`
    + `<p class="word">${WORTH} ${endText(steady, labels)} ${seen}</p>${more}`
    + '<p class="word">It speaks of the costs of this machine, and of no real processor.</p>';
}

/** The answer with what it is worth; what stands there where it was not asked. */
export function steadyText(steady, { isRefused, labels, declaredAt = null }) {
  if (!steady) {
    return '<p class="word">The rules bound what an accepted program tells. Whether it tells nothing at all by its time'
      + ' is a judgement of its own, without the rules.</p>';
  }
  if (steady.kind === 'yes') return yesText(steady, isRefused, labels);
  if (steady.kind === 'other') return `<p class="word">No answer: <code>${escaped(steady.text)}</code></p>`;
  const mend = MENDS[steady.reason] ? `<p class="word">${MENDS[steady.reason]}</p>` : '';
  const bounded = isRefused ? '' : ' The program is accepted, so what its runs tell is bounded.';
  return `<p class="judgement">Not known to be, for an observer at ${labelText(steady.to, labels)}</p>`
    + `<p class="word">Since ${noText(steady, labels, declaredAt)}</p>${mend}<p class="word">${NO_LEAK}${bounded}</p>`;
}

/** What stands beside the verdict of a refused program that is constant in time. */
export function besideVerdict(steady, labels) {
  return `<b class="steady-yes">✓ Constant in time for ${labelText(steady.observer, labels)}</b>: this refusal is no`
    + ' leak. <button type="button" class="link" id="to-steady">What that is worth</button>';
}
