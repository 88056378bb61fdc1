// The verdict, and why a program is refused, as HTML.

import { escaped } from './colours.js';
import { labelText, placeButton, placeText } from './marks.js';
import { counted } from './numbers.js';
import { TERMS, term } from './terms.js';

const LOW = 'the write label of this command lies too low';
const RULES = {
  'T-ASGN': 'what is assigned here, or when, depends on more than those may know who see the variable,'
    + ' or the write label of this command lies too low',
  'T-SKIP': LOW,
  'T-SLEEP': LOW,
  'T-IF': LOW,
  'T-WHILE': LOW,
  'T-MTG': 'the level of this mitigate is too low for the time of its body, or its write label lies too low',
};

/** The verdict in a line. */
export function verdictText(verdict, labels) {
  const list = (text) => verdict.refusals.map((refusal, k) => `<span>${text(refusal, k)}</span>`).join('');
  // no two buttons have one name: the first refusal by a rule has the term, and the others its name
  const isFirst = (rule, k) => verdict.refusals.findIndex((refusal) => refusal.rule === rule) === k;
  const ruleText = ({ rule }, k) => (isFirst(rule, k) && TERMS[rule] ? term(rule) : rule);
  const flow = (refusal) => `${labelText(refusal.from, labels)} does not flow to ${labelText(refusal.to, labels)}`;
  switch (verdict.kind) {
    case 'accepted':
      return `${term('accepted', 'Accepted')} <span>${counted(verdict.commands, 'command')},`
        + ` ${verdict.mitigates === 0 ? 'no mitigate' : counted(verdict.mitigates, 'mitigate')}</span>`;
    case 'refused':
      return `${term('refused', 'Refused')} ${list((refusal, k) => {
        return `by ${ruleText(refusal, k)} at ${placeButton(refusal.place)}: ${flow(refusal)}`;
      })}`;
    case 'syntax':
      return `Not a program ${list(({ what, place }) => escaped(what) + (place ? ` at ${placeButton(place)}` : ''))}`;
    default:
      return `No verdict <span>${escaped(verdict.text)}</span>`;
  }
}

const codes = (words) => words.split(' ').map((word) => `<code>${escaped(word)}</code>`).join(' ');
const FAULT = {
  found: (words) => `Found ${/^byte \d+$/.test(words) ? `a ${words}` : codes(words)}`,
  expected: (words) => `Here could stand ${codes(words)}`,
  labels: (words) => `The labels are ${codes(words)}`,
  nearest: (words) => `Is it ${codes(words)}?`,
  '': (words) => `${escaped(words[0].toUpperCase() + words.slice(1))}.`,
};

/** What is told of a text that is no program. */
export function faultText(told) {
  return told.map(({ says, words }) => `<p class="word">${FAULT[says](words)}</p>`).join('');
}

/** Why a program is refused: the chain, or where there is none what the rule says. */
export function whyText(verdict, steps) {
  if (verdict.kind !== 'refused') return '';
  if (steps.length === 0) {
    const time = verdict.rule === 'T-ASGN'
      ? ' Where it is the time that tells, a <b>mitigate</b> around the secret work bounds what it can tell.'
      : '';
    return `<p class="word">${verdict.rule}: ${RULES[verdict.rule] ?? ''}.${time}</p>`;
  }
  const list = steps.map((step, k) => {
    const place = placeText(step.place), words = `<span class="at">${place}</span>${escaped(step.text)}`;
    return `<li data-n="${k + 1}"><button type="button"`
      + ` data-place="${place}" aria-label="Step ${k + 1}, ${place}: ${escaped(step.text)}">`
      + `${words}</button></li>`;
  });
  return `<h3>Why <small>the way that the secret took, whichever left-out labels are chosen</small></h3>`
    + `<ol class="why">${list.join('')}</ol>`;
}

/** The mitigate that is offered: `found` has the first and the last line that go into it. `isNoLeak` says that the
    program needs none, since it is constant in time. */
export function mendText(found, isNoLeak = false) {
  const lines = found.first === found.last ? `line ${found.first}` : `lines ${found.first} to ${found.last}`;
  return `<button type="button" id="mend-go">Put ${lines} into a mitigate</button> With that the tool accepts the`
    + ` program${isNoLeak ? ', with a limit above what it tells' : ''}.`;
}
