// The words of each call that the page makes, which are those of a command line too.

import { OWN, withSharing } from './machine.js';

export const PROGRAM = 'program.mit';
export const STARTS = 'starts.toml';
export const MACHINE = 'machine.toml';

/** Either machine of a comparison, as a file. */
export const SIDES = { partitioned: 'partitioned.toml', shared: 'shared.toml' };

const isOwn = (asked) => asked.environment === OWN;
const machineName = (asked) => SIDES[asked.side] ?? MACHINE;
const caches = (asked) => (isOwn(asked) ? ['--machine', machineName(asked)] : ['--env', asked.environment]);
const settings = (asked) => [...caches(asked), '--budget', asked.budget];
const observer = (asked) => ['--observer', asked.observer];
const onStarts = (command, asked) => [command, PROGRAM, STARTS, ...observer(asked), ...settings(asked)];

/** The words of each call, by its name, after those of the program that is called. */
export const WORDS = {
  check: () => ['check', PROGRAM],
  infer: () => ['infer', PROGRAM],
  compile: () => ['compile', PROGRAM],
  why: () => ['why', PROGRAM],
  whyOf: ({ name }) => ['why', PROGRAM, '--of', name],
  audit: (asked) => onStarts('audit', asked),
  cut: (asked) => onStarts('cut', asked),
  bound: (asked) => onStarts('bound', asked),
  seen: (asked) => onStarts('seen', asked),
  leak: (asked) => onStarts('leak', asked),
  tune: (asked) => [...onStarts('tune', asked), '--of', `#${asked.mark}`],
  helpTune: () => ['help', 'tune'],
  steady: (asked) => ['steady', PROGRAM, ...observer(asked)],
  steadyEnd: (asked) => ['steady', PROGRAM, ...observer(asked), '--whole'],
  timeline: (asked) => ['timeline', PROGRAM, STARTS, ...settings(asked)],
  timelineRefused: (asked) => ['timeline', PROGRAM, STARTS, ...settings(asked), '--refused'],
  seenRefused: (asked) => [...onStarts('seen', asked), '--refused'],
  run: (asked) => ['run', PROGRAM, STARTS, ...settings(asked)],
};

/** The files that the words name. */
export const filesOf = (asked) => ({
  [PROGRAM]: asked.program, [STARTS]: asked.starts, ...(isOwn(asked) ? { [machineName(asked)]: asked.machine } : {}),
});

/** The call that counts what is seen of runs that halt: the lab alone takes machines. */
export const countCall = (asked) => (isOwn(asked) ? ['lab', WORDS.bound(asked)] : ['mitigate', WORDS.audit(asked)]);

/** What is asked of either machine of a comparison: of that of `text`, with partitions or shared. */
export const onSide = (asked, text, side) =>
  ({ ...asked, environment: OWN, machine: withSharing(text, side), side });

/** The words of a call that shows to the chosen observer only what it sees. */
export const asSeen = (words, asked) => [...words, ...observer(asked)];

const LISTS = {
  accepted: [
    ['the verdict', 'mitigate', 'check'], ['the audit', 'mitigate', 'audit'], ['the sharp count', 'lab', 'bound'],
    ['what these runs tell', 'lab', 'leak'], ['the timeline', 'lab', 'timeline'], ['what is seen', 'lab', 'seen'],
    ['the left-out labels', 'mitigate', 'infer'], ['the compiled code', 'mitigate', 'compile'],
  ],
  refused: [
    ['the verdict', 'mitigate', 'check'], ['the way that the secret took', 'lab', 'why'],
    ['the timeline', 'lab', 'timelineRefused'], ['what is seen', 'lab', 'seenRefused'],
  ],
  syntax: [['the verdict', 'mitigate', 'check'], ['what could stand there', 'lab', 'why']],
  cut: [
    ['the verdict', 'mitigate', 'check'], ['the count until then', 'mitigate', 'cut'],
    ['the timeline', 'lab', 'timeline'],
    ['what is seen', 'lab', 'seen'], ['the left-out labels', 'mitigate', 'infer'],
    ['the compiled code', 'mitigate', 'compile'],
  ],
  space: [
    ['the verdict', 'mitigate', 'check'], ['what these starts tell', 'lab', 'leak'],
    ['the left-out labels', 'mitigate', 'infer'], ['the compiled code', 'mitigate', 'compile'],
  ],
  other: [['the verdict', 'mitigate', 'check']],
};

const STEADY = [['whether it is constant in time', 'lab', 'steady']];
const STEADY_END = [...STEADY, ['and its end', 'lab', 'steadyEnd']];

const NOT_ON_MACHINES = ['audit', 'cut'];
const COMPARED = [['with partitions', 'partitioned'], ['with one cache for all', 'shared']];

// A word as a shell takes it: what begins with # would be a comment.
const quoted = (word) => (word.startsWith('#') ? `'${word}'` : word);

function commandLine(says, program, name, asked) {
  const words = WORDS[name](asked);
  return { says, program, words, line: `./${program} ${words.map(quoted).join(' ')}`, files: filesOf(asked) };
}

/** The command lines that give what the page shows: [{says, program, words, line, files}]. `steady` is the answer to
    whether the program is constant in time, where that was asked, `banks` the machine's text where partitions stand
    beside one cache for all, and `mark` the number of the mitigate whose best first predictions are shown. */
export function commandLines(asked, kind, { steady = null, banks = null, mark = null } = {}) {
  const more = [
    ...(mark === null ? [] : [['the best first predictions', 'lab', 'tune']]),
    ...(!steady ? [] : steady.kind === 'yes' ? STEADY_END : STEADY),
  ];
  const isThere = ([, , name]) => !(isOwn(asked) && NOT_ON_MACHINES.includes(name));
  const lines = [...(LISTS[kind] ?? LISTS.other), ...more].filter(isThere)
    .map(([says, program, name]) => commandLine(says, program, name, { ...asked, mark }));
  if (banks === null) return lines;
  return [...lines, ...COMPARED.map(([says, side]) => commandLine(says, 'lab', 'leak', onSide(asked, banks, side)))];
}
