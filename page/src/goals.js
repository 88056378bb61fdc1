// What a task asks for, and whether it was done: judged by what the tool said of what is on the page.

import { counted, spaced } from './numbers.js';
import { escaped } from './colours.js';

// Of each kind of goal: what it asks for in words, whether it was reached, and what is so now where that is a number.
const GOALS = {
  accepted: { says: () => 'the program is accepted', isDone: (facts) => facts.kind === 'accepted' },
  refused: { says: () => 'the program is refused', isDone: (facts) => facts.kind === 'refused' },
  noMitigate: { says: () => 'there is no mitigate in it',
    isDone: (facts) => facts.kind !== null && facts.mitigates === 0 },
  sequences: {
    says: (most) => (most === 1 ? 'the observer cannot tell the runs apart'
      : `the observer sees at most ${counted(most, 'different sequence')}`),
    isDone: (facts, most) => facts.sequences !== null && facts.sequences <= most,
    now: (facts) => facts.sequences !== null && counted(facts.sequences, 'sequence'),
  },
  leastSequences: {
    says: (least) => `the observer sees ${counted(least, 'different sequence')} or more`,
    isDone: (facts, least) => facts.sequences !== null && facts.sequences >= least,
    now: (facts) => facts.sequences !== null && counted(facts.sequences, 'sequence'),
  },
  sharp: {
    says: (most) => `the sharp count is ${most === 1 ? '1' : `at most ${spaced(most)}`}`,
    isDone: (facts, most) => facts.sharp !== null && facts.sharp <= BigInt(most),
    now: (facts) => facts.sharp !== null && spaced(facts.sharp),
  },
  longest: {
    says: (most) => `each run ends by cycle ${spaced(most)}`,
    isDone: (facts, most) => facts.longest !== null && facts.longest <= most,
    now: (facts) => facts.longest !== null && `the last one at ${spaced(facts.longest)}`,
  },
  sameEnd: { says: () => 'all runs end at the same cycle', isDone: (facts) => facts.isSameEnd },
  runs: {
    says: (least) => `there are ${counted(least, 'run')} or more`,
    isDone: (facts, least) => facts.runs !== null && facts.runs >= least,
    now: (facts) => facts.runs !== null && spaced(facts.runs),
  },
  values: {
    says: (values) => Object.entries(values).map(([name, list]) => `${name} ends as ${list.join(', ')} in the runs`)
      .join('; '),
    isDone: ({ last }, values) => last !== null && Object.entries(values).every(([name, list]) => {
      return last.length === list.length && list.every((value, k) => last[k].get(name) === value);
    }),
  },
  sameProgram: { says: () => 'the program is the one that was given', isDone: (facts) => facts.isSameProgram },
  sameStarts: { says: () => 'the starts are those that were given', isDone: (facts) => facts.isSameStarts },
  sameLabels: { says: () => 'the variables have the labels that were given', isDone: (facts) => facts.isSameLabels },
};

const NUMBERS = ['sequences', 'leastSequences', 'sharp', 'longest', 'runs'], NOT_IN_LINKS = ['values'];
const MOST = 2 ** 40;

/** A goal as it may stand in a link: only what is known here, with numbers from 1 on; null where that is nothing. */
export function readGoal(value) {
  if (typeof value !== 'object' || value === null) return null;
  const goal = {};
  for (const name of Object.keys(GOALS).filter((known) => !NOT_IN_LINKS.includes(known))) {
    const given = value[name], isNumber = Number.isSafeInteger(given) && given >= 1 && given <= MOST;
    if (NUMBERS.includes(name) ? isNumber : given === true) goal[name] = given;
  }
  return Object.keys(goal).length ? goal : null;
}

/** The parts of a goal: [{says, isDone, now}], `now` being empty where there is no number to tell. */
export function checksOf(goal, facts) {
  return Object.keys(GOALS).filter((name) => goal[name] !== undefined).map((name) => {
    const { says, isDone, now } = GOALS[name];
    return { says: says(goal[name]), isDone: isDone(facts, goal[name]), now: now?.(facts) || '' };
  });
}

// The labels that a program itself writes, as the page reads them, that another one has to have as well.
const keepsLabels = (given, labels) => [...given].every(([name, label]) => labels.get(name) === label);

/** What is known of what is on the page. `given` is what the task loaded, with `labels`, those of its variables; what
    is not an answer to what is there, by `fresh`, is not known. */
export function factsOf({ state, shown, fresh, given }) {
  const isKnown = fresh('verdict'), audit = fresh('audit') ? shown.audit : null,
    runs = fresh('runs') && !shown.listed ? shown.runs : null;
  const report = audit?.report && !audit.isCut ? audit.report : null;
  const haveAllEnded = runs !== null && shown.isAll && runs.every((run) => run.halted);
  const ends = haveAllEnded ? runs.map((run) => run.end) : null;
  return {
    kind: isKnown ? shown.verdict.kind : null,
    mitigates: isKnown ? shown.verdict.mitigates ?? null : null,
    sequences: (report ?? audit?.space)?.distinct ?? null,
    sharp: report ? audit.sharp?.sharp ?? null : null,
    longest: ends ? Math.max(...ends) : null,
    last: ends ? runs.map((run) => new Map(run.events.map((event) => [event.variable, event.value]))) : null,
    isSameEnd: ends !== null && new Set(ends).size === 1,
    runs: runs ? runs.length : audit?.space?.runs ?? null,
    isSameProgram: state.program === given.program,
    isSameStarts: state.starts === given.starts,
    isSameLabels: isKnown && keepsLabels(given.labels, shown.labels.of),
  };
}

/** The parts of a goal as HTML, and whether all are done. */
export function checksText(checks) {
  const items = checks.map(({ says, isDone, now }) => {
    const more = now ? ` <small>(now: ${escaped(now)})</small>` : '';
    const mark = `<span aria-hidden="true">${isDone ? '✓' : '○'}</span><span`
      + ` class="unseen">${isDone ? 'done' : 'not yet'}: </span>`;
    return `<li class="${isDone ? 'done' : 'open'}">${mark} ${escaped(says)}${isDone ? '' : more}</li>`;
  });
  return `<ul class="checks">${items.join('')}</ul>`;
}
