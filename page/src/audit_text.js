// The numbers of an audit with what they mean, as HTML.

import { bitsOf } from './answers.js';
import { bitsText } from './leak_text.js';
import { boundText, counted, powerText, spaced, wholeBound } from './numbers.js';
import { refusalText } from './finding.js';
import { labelText } from './marks.js';
import { term } from './terms.js';

function numberBox(number, says, more = '') {
  const title = more ? ` title="${more}"` : '';
  return `<div class="number-of">`
    + `<b${title}>${number}</b><i>${says}${more ? ` <span class="unseen">${more}</span>` : ''}</i></div>`;
}

// The name of a limit, at whose colon no line begins.
const limitName = (name) => `<span class="keep">${term(name)}:</span>`;

// A number of bits, in one line.
const bitsWord = (number) => `<span class="keep">${counted(number, 'bit')}</span>`;

function boundBox({ base, exponent }) {
  return numberBox(powerText({ base, exponent }),
    `at most, by the ${limitName('bound')} ${bitsWord(bitsOf(base, exponent))}`);
}

// The count by shared time, where that is less than the sharp one.
function sharedBox({ sharp, shared }) {
  if (shared === undefined || (sharp !== undefined && shared >= sharp)) return '';
  const bits = bitsWord(bitsOf(shared, 1));
  return numberBox(boundText(shared), `at most, by ${limitName('shared time')} ${bits}`, wholeBound(shared));
}

// The count by own first predictions, where that is less than the others.
function ownBox({ sharp, shared, own }) {
  const isLeast = own !== undefined && [sharp, shared].every((other) => other === undefined || own < other);
  if (!isLeast) return '';
  const bits = bitsWord(bitsOf(own, 1));
  return numberBox(boundText(own), `at most, by ${limitName('own first predictions')} ${bits}`, wholeBound(own));
}

const NO_LIMIT = 'no limit, since all labels share the caches';

// The numbers of all starts of a space: no limit is told of others.
function spaceBoxes({ runs, distinct, least, greatest }) {
  const sequences = term('timed sequence', distinct === 1 ? 'sequence' : 'sequences');
  const of = runs === 1 ? 'this start' : `${spaced(runs)} starts`;
  return numberBox(spaced(distinct), `different ${sequences} seen of ${of}`)
    + numberBox(spaced(greatest), `look alike in the largest ${term('class')}, and ${spaced(least)} in the smallest`);
}

/** The numbers: what is seen, and the limits. */
export function auditBoxes({ report, sharp, space }) {
  if (space) return spaceBoxes(space);
  const runs = report.runs === 1 ? 'this run' : `these ${spaced(report.runs)} runs`;
  const sequences = term('timed sequence', report.distinct === 1 ? 'sequence' : 'sequences');
  const seen = numberBox(spaced(report.distinct), `different ${sequences} seen in ${runs}`);
  const limit = sharp?.sharp === undefined
    ? ''
    : numberBox(boundText(sharp.sharp), `at most, by the ${limitName('sharp count')} ${bitsWord(sharp.bits)}`,
    wholeBound(sharp.sharp));
  const last = report.sharing === 'shared' ? numberBox('none', NO_LIMIT) : boundBox(report);
  return seen + limit + (ownBox(sharp ?? {}) || sharedBox(sharp ?? {})) + last; // of the other counts the lesser one
}

const OWN = ', and that by own first predictions where none has one below the least at its place in these runs';

// The starts for which the numbers hold.
function holdsFor(report, isCut, sharp, observer) {
  if (report.sharing === 'shared') {
    return ' All labels share the caches of this machine. So what a secret access leaves behind changes what public'
      + ' ones find, and no limit is told: each rests on a law that such a machine breaks.';
  }
  const agree = `for all starts that agree with these at or below ${observer}`;
  if (isCut) return ` The bound holds ${agree}, and with which no more relevant mitigations end by then.`;
  if (sharp?.sharp === undefined) return ` The bound holds ${agree}, and halt by then.`;
  const [all, counts] = sharedBox(sharp) === '' ? ['Both', 'the sharp count,'] : ['All', 'both counts'];
  return ` ${all} limits hold ${agree}, and halt by then; ${counts} where besides no relevant mitigation of theirs`
    + ` has a first prediction below the least of its ${term('level')} here${ownBox(sharp) === '' ? '' : OWN}.`;
}

const relevantWord = (count) => `${term('relevant')} ${count === 1 ? 'mitigation' : 'mitigations'}`;

function howText(report, isCut, observer) {
  const who = `For an observer at ${observer} up to cycle ${spaced(report.budget)}`;
  if (isCut) {
    return `${who}: ${spaced(report.halted)} of ${counted(report.runs, 'run')} have halted; what is seen until then`
      + ` is counted`
      + ` (cut). ${spaced(report.ended)} ${relevantWord(report.ended)} at most ended.`;
  }
  const many = `${spaced(report.mitigations)} ${relevantWord(report.mitigations)} in each run`;
  if (report.levels === undefined) return `${who}: ${many}.`;
  const levels = `${counted(report.levels, 'label')} that ${report.levels === 1 ? 'does' : 'do'} not flow to the`
    + ` observer`;
  return `${who}: ${many}, ${levels}.`;
}

// Whether the limits hold of one who sees when a run ends too.
function endText(countsEnd) {
  if (countsEnd === undefined) return '';
  return countsEnd
    ? ' So it is for one who sees when it ends, too.'
    : ' When it ends is not counted, and may tell more.';
}

function spaceWords({ runs, observer, budget, shannon }, labels) {
  return `For an observer at ${labelText(observer, labels)} up to cycle ${spaced(budget)}, of all`
    + ` ${counted(runs, 'start')} of the space, one as likely as the other: exactly. On the average a run tells`
    + ` ${bitsText(shannon)} bits of its start (${term('Shannon entropy')}). Bound and sharp count, which limit what`
    + ' other starts tell, are told of a list of runs.';
}

/** The numbers in words, or why there are none. */
export function auditWords(audit, labels, asked) {
  if (audit.refusal) return refusalText(audit.refusal, labels, asked.observer);
  if (audit.space) return spaceWords(audit.space, labels);
  const { report, isCut, sharp } = audit, observer = labelText(report.observer, labels);
  const times = (guess) => `${boundText(guess)} ${guess === 1n ? 'time' : 'times'}`;
  const guess = sharp?.guess === undefined
    ? ''
    : ` Whoever sees one such run guesses the secret right at most <b>${times(sharp.guess)}</b> as often as before.`;
  const holds = holdsFor(report, isCut, sharp, observer);
  return howText(report, isCut, observer) + holds + guess + endText(sharp?.countsEnd);
}
