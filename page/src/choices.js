// The first predictions of one mitigate that matter, as the lab's `tune` tells them: which no other one betters, how
// far nothing changes from each on, and what each tells and costs.

import { counted, spaced } from './numbers.js';

/** The greatest first prediction that `tune` looks at. */
export const GREATEST = 2 ** 40;

const toldText = (told) => (told === 1 ? 'nothing is told' : `at most ${spaced(told)} things are told`);
const endsText = ({ mean, greatest }) => (mean === greatest ? `all runs end at ${spaced(greatest)}`
  : `the runs end at ${spaced(mean)} on the mean, and by ${spaced(greatest)}`);

/** The choices as points of a picture, from the mean to the last end. */
export const pointsOf = (choices) => choices.map((choice) => {
  const { first, last, told, mean, greatest } = choice, row = first === last ? '' : ` to ${spaced(last)}`;
  return {
    prediction: first, last, sequences: told, shortest: mean, longest: greatest,
    says: `${spaced(first)}${row}: ${toldText(told)}, ${endsText(choice)}`,
  };
});

/** The choice with which no miss count is other than with a first prediction; or null. */
export const choiceOf = (choices, prediction) =>
  choices.find(({ first, last }) => first <= prediction && prediction <= last) ?? null;

// What is so of the first prediction that stands there.
function nowText(choices, current) {
  const same = current === null ? null : choiceOf(choices, current);
  if (current === null) return '';
  if (!same) return ` The ${spaced(current)} that stands there is bettered by one of these.`;
  return same.first === current ? ` The ${spaced(current)} that stands there is one of these.`
    : ` The ${spaced(current)} that stands there misses as ${spaced(same.first)} does, and the runs end no earlier.`;
}

/** What the choices say, and why no other one matters. */
export function choicesText(choices, current) {
  if (choices.length === 0) return 'With no first prediction all runs halt by the greatest cycle.';
  const [fewest] = [...choices].sort((some, other) => some.told - other.told);
  const least = `With ${spaced(fewest.first)} ${toldText(fewest.told)}, and ${endsText(fewest)}.`;
  return `${least}${nowText(choices, current)} No other one does better: each that is not here, from 1 to`
    + ` ${spaced(GREATEST)}, and with which all runs halt in time, tells at least as much as one of these, and its runs`
    + ' end no earlier on the mean. All predictions of one row miss equally often.';
}

const HEADS = ['first prediction', 'the same up to', 'tells at most', 'mean end', 'last end', 'use it'];

/** The choices as a table, each with a button that takes it; `current` is the first prediction that stands there. */
export function choicesTable(choices, current) {
  const same = current === null ? null : choiceOf(choices, current);
  const rows = choices.map((choice) => {
    const { first, last, told, mean, greatest } = choice, name = `Take the prediction ${spaced(first)}`;
    const cells = [first, last, told, mean, greatest].map((number) => `<td class="what">${spaced(number)}</td>`);
    const take = choice === same && first === current ? 'stands there'
      : `<button type="button" class="link" data-take="${first}" aria-label="${name}">Take</button>`;
    return `<tr>${cells.join('')}<td class="what">${take}</td></tr>`;
  });
  const head = HEADS.map((text) => `<th scope="col">${text}</th>`).join('');
  return `<table><thead><tr>${head}</tr></thead><tbody>${rows.join('')}</tbody></table>`;
}

/** What stands above the choices. */
export const choicesNote = ({ runs, choices }) =>
  `${counted(choices.length, 'choice')} of ${counted(runs, 'run')}; the other mitigates stay as written.`;
