// What was found, in a sentence.

import { counted, inWords, spaced } from './numbers.js';
import { labelText, placeText } from './marks.js';
import { escaped } from './colours.js';
import { isSteady } from './steady_text.js';

const capital = (text) => text[0].toUpperCase() + text.slice(1);

// The least of the limits: of the counts that are told, or where there is none the bound.
function limitOf(report, sharp) {
  const told = [sharp?.sharp, sharp?.shared, sharp?.own].filter((count) => count !== undefined);
  if (told.length === 0) return BigInt(report.base) ** BigInt(report.exponent);
  return told.reduce((least, count) => (count < least ? count : least));
}

const NO_LIMIT = 'no limit holds, since all labels share the caches';
const limitWords = (limit) => (limit < 10n ** 6n ? inWords(limit) : `2<sup>${bitsIn(limit)}</sup>`);

// The least B with a number at most 2^B.
function bitsIn(number) {
  return (number - 1n).toString(2).length;
}

function ofReport({ report, isCut, sharp }, labels) {
  const who = `an observer at ${labelText(report.observer, labels)}`, { runs, distinct } = report;
  const isShared = report.sharing === 'shared', limit = isShared ? null : limitOf(report, sharp);
  if (isCut) {
    const verb = report.halted === 1 ? 'has' : 'have';
    const some = `${capital(inWords(report.halted))} of ${counted(runs, 'run')} ${verb}`;
    const timings = distinct === 1 ? 'one timing' : `${inWords(distinct)} different timings`;
    const halted = `${report.halted === 0 ? 'No run has' : some} halted by cycle ${spaced(report.budget)}`;
    return `${halted}. Until then ${who} sees ${timings}.`;
  }
  const most = isShared ? NO_LIMIT : limit === 1n ? 'no other is possible'
    : `at most ${limitWords(limit)} are possible`;
  const others = isShared || limit === 1n ? most : `with other secrets ${most}`;
  if (runs === 1) return `Of one run ${who} sees one timing; ${others}.`;
  if (distinct === 1) {
    return `${capital(who)} cannot tell these ${inWords(runs)} runs apart; ${others}.`;
  }
  return `Of ${inWords(runs)} runs ${who} sees ${inWords(distinct)} different timings; ${most}.`;
}

// What is seen of all starts of a space.
function ofSpace({ runs, distinct, observer }, labels) {
  const who = `an observer at ${labelText(observer, labels)}`;
  if (runs === 1) return `Of one start ${who} sees one timing.`;
  if (distinct === 1) return `${capital(who)} cannot tell these ${inWords(runs)} starts apart.`;
  return `Of all ${inWords(runs)} starts of the space ${who} sees ${inWords(distinct)} different timings.`;
}

// What is seen of the runs of a refused program.
function ofRefused(runs, observer, labels) {
  const distinct = Math.max(...runs.map((run) => run.class)), who = `an observer at ${labelText(observer, labels)}`;
  const timings = distinct === 1 ? 'one timing' : `${inWords(distinct)} timings`;
  const of = runs.length === 1 ? 'one run' : `${inWords(runs.length)} runs`;
  return `Of ${of} ${who} sees ${timings}, and no limit holds.`;
}

/** What was found of a program and its starts, as HTML; empty where nothing was found yet. */
export function findingText({ verdict, audit, labels, observer, steady = null, runs = null }) {
  if (verdict?.kind === 'syntax') {
    return `This is not a program: ${escaped(verdict.what)}${verdict.place ? ` at ${placeText(verdict.place)}` : ''}.`;
  }
  if (verdict?.kind === 'refused' && isSteady(steady)) {
    return `Refused at ${placeText(verdict.place)}, and yet no leak: starts that agree show an observer at`
      + ` ${labelText(steady.observer, labels)} the same at the same cycles.`;
  }
  if (verdict?.kind === 'refused') {
    const { from, to } = verdict;
    const what = `what is ${labelText(from, labels)} would reach ${labelText(to, labels)}`;
    const refused = `Refused, since at ${placeText(verdict.place)} ${what}.`;
    return `${refused} ${runs ? ofRefused(runs, observer, labels) : 'No limit holds for how much it tells.'}`;
  }
  if (verdict && verdict.kind !== 'accepted') return `There is no verdict: ${escaped(verdict.text)}.`;
  if (audit?.report) return ofReport(audit, labels);
  if (audit?.space) return ofSpace(audit.space, labels);
  if (audit?.refusal) return refusalText(audit.refusal, labels, observer);
  return '';
}

/** Why there is no count, as HTML. */
export function refusalText(refusal, labels, observer) {
  const disagree = /^disagree: run (\d+): (variable|partition) (.+)$/.exec(refusal.text);
  if (disagree) {
    const [, run, kind, name] = disagree;
    const what = kind === 'variable' ? `the variable <code>${escaped(name)}</code>`
      : `the cache partition ${escaped(name)}`;
    return `No count: the starts must agree in all that an observer at ${labelText(observer, labels)} may see, `
      + `and run ${run} differs from run 1 in ${what}.`;
  }
  const several = /^disagree: variable (.+)$/.exec(refusal.text);
  if (several) {
    return `No count: the starts must agree in all that an observer at ${labelText(observer, labels)} may see, and`
      + ` <code>${escaped(several[1])}</code> has more than one value in the space.`;
  }
  const unfinished = /^unfinished: run (\d+) @(\d+)$/.exec(refusal.text);
  if (unfinished && refusal.isOfSpace) {
    return `No count: start ${spaced(unfinished[1])} of the space has not halted by the greatest cycle.`;
  }
  if (unfinished) {
    return `No count: run ${spaced(unfinished[1])} has not halted by the greatest cycle, and on a machine of a file`
      + ' only runs are counted that have.';
  }
  if (refusal.unknown?.length) {
    const names = refusal.unknown.map((name) => `<code>${escaped(name)}</code>`).join(', ');
    return `No runs: the starts give values to ${names}, which the program does not declare. A column can be renamed or`
      + ' dropped below.';
  }
  if (refusal.kind === 'starts' || refusal.kind === 'space') return `No runs: <code>${escaped(refusal.text)}</code>.`;
  return `No count: <code>${escaped(refusal.text)}</code>.`;
}

/** Whether runs that were tried can be told apart. */
export function isLeaking(audit) {
  return (audit?.report ?? audit?.space)?.distinct > 1;
}
