// What the page asks of the tool about one program and its starts. Each answer is what the tool printed, read.

import {
  classesOf, markSeen, readAudit, readFault, readLabel, readLeak, readRefusal, readRun, readSteady, readTimeline,
  readTune, readVerdict, readWhy,
} from './answers.js';
import { asSeen, countCall, filesOf, MACHINE, onSide, PROGRAM, STARTS, WORDS } from './commands.js';
import { mitigates, offsetOf, placeOf, readProgram, withEstimate, wrapped } from './language.js';
import { machineFault, OWN } from './machine.js';
import { ownCode } from './own_code.js';
import { columnsOf, oneStart, readStarts } from './starts.js';

const DONE = 0, OUT_OF_BUDGET = 8, UNFINISHED = 10;

/** How many runs are drawn where each needs a call of its own. */
export const MOST_SINGLE_RUNS = 64;

const files = filesOf;
const refusalOf = ({ text }) => readRefusal(text.split('\n')[0]);

/** Whether the tool accepts the program, and which refusals it names. */
export async function verdictOf(tool, state) {
  return readVerdict((await tool.call('mitigate', WORDS.check(), files(state))).text);
}

/** The program with all its labels, as the tool completes them; null where it is refused. */
export async function completedBy(tool, state) {
  const { status, text } = await tool.call('mitigate', WORDS.infer(), files(state));
  return status === DONE ? text : null;
}

/** The text of the compiled code, or the refusal's line. */
export async function codeOf(tool, state) {
  return tool.call('mitigate', WORDS.compile(), files(state));
}

/** The labels of a program's variables and arrays, by name, and of its mitigates, by number: the written ones, and of
    those that are left out the least ones, each as the lab tells it. Null where it does not. */
export async function leastLabelsOf(tool, state) {
  const program = tool.has('lab') ? readProgram(state.program) : null;
  if (!program) return null;
  const asked = async (name) =>
    readLabel((await tool.call('lab', WORDS.whyOf({ name }), { [PROGRAM]: state.program })).text, name);
  const of = new Map(), levels = [];
  for (const { name, label } of program.variables) of.set(name, label ?? await asked(name));
  for (const { level, mark } of mitigates(program)) levels.push(level ?? await asked(`#${mark}`));
  return [...of.values(), ...levels].includes(null) ? null : { of, levels };
}

/** The code of a refused program, by its least labels, as the page reads it; null where the lab does not tell these. */
export async function refusedCodeOf(tool, state) {
  const labels = await leastLabelsOf(tool, state);
  return labels && ownCode(readProgram(state.program), state.program, labels);
}

/** The chain of a refusal, by the lab; null where the lab is not in the module. */
export async function chainOf(tool, state) {
  if (!tool.has('lab')) return null;
  const { text } = await tool.call('lab', WORDS.why(), files(state));
  const why = readWhy(text);
  return why.steps.length ? why : null;
}

/** What the lab tells of a text that is no program; nothing where the lab is not in the module. */
export async function faultOf(tool, state) {
  return tool.has('lab') ? readFault((await tool.call('lab', WORDS.why(), files(state))).text) : [];
}

const MOST_TRIES = 60, FIRST_ESTIMATE = 64;

/** A mitigate that makes a refused program an accepted one: around the fewest commands just before the refused one, in
    its list or in one around it. {text, first, last} with the lines, or null where no such one serves. */
export async function mendOf(tool, state, refusal) {
  const program = readProgram(state.program);
  if (!program || refusal.rule !== 'T-ASGN') return null;
  const at = offsetOf(state.program, refusal.place.line, refusal.place.column);
  let tries = 0;
  for (const list of listsTo(program.body, at).reverse()) {
    const end = list.findIndex((command) => command.at <= at && at < command.end);
    for (let k = end - 1; k >= 0 && tries < MOST_TRIES; k--, tries++) {
      const text = wrapped(state.program, list[k], list[end - 1], FIRST_ESTIMATE, refusal.from);
      const { status } = await tool.call('mitigate', WORDS.check(), { [PROGRAM]: text });
      const lineOf = (offset) => placeOf(state.program, offset).line;
      if (status === DONE) return { text, first: lineOf(list[k].at), last: lineOf(list[end - 1].end - 1) };
    }
  }
  return null;
}

// The lists of commands that hold a place, the outermost first.
function listsTo(list, at) {
  const around = list.find((command) => command.at <= at && at < command.end && !command.isAdded);
  if (!around) return [];
  return [list, ...around.parts.flatMap((part) => listsTo(part, at))];
}

const counted = (tool, state) => tool.call(...countCall(state), files(state));

/** The audit: {report} of runs that have halted, {report, isCut} where some have not, or {refusal}. On a machine of a
    file, which the lab alone takes, the sharp count stands beside it already, and no runs are cut. */
export async function auditOf(tool, state) {
  const answer = await counted(tool, state), isOwn = state.environment === OWN;
  if (answer.status === DONE) {
    const report = readAudit(answer.text);
    return { report, isCut: false, ...(isOwn ? { sharp: sharpIn(report) } : {}) };
  }
  if (answer.status !== UNFINISHED || isOwn) return { refusal: withUnknown(refusalOf(answer), state) };
  const cut = await tool.call('mitigate', WORDS.cut(state), files(state));
  return cut.status === DONE ? { report: readAudit(cut.text), isCut: true } : { refusal: refusalOf(cut) };
}

// A refusal of starts for a name that the program does not declare has the names.
function withUnknown(refusal, state) {
  const starts = readStarts(state.starts), program = readProgram(state.program);
  if (!/: unknown key$/.test(refusal.text) || !program || !starts.runs) return refusal;
  const isKnown = (name) => program.variables.some((variable) => variable.name === name);
  return { ...refusal, unknown: columnsOf(starts).filter((name) => !isKnown(name)) };
}

const sharpIn = (report) => (report?.sharp === undefined ? null : report);

/** The sharp count and what stands beside it, by the lab; null where it is not there or refuses. */
export async function sharpOf(tool, state) {
  if (!tool.has('lab')) return null;
  const { status, text } = await tool.call('lab', WORDS.bound(state), files(state));
  return sharpIn(status === DONE ? readAudit(text) : null);
}

const LEAST = { [PROGRAM]: 'var l : L;\nskip\n', [STARTS]: '[[run]]\n' };

/** What the lab refuses in a machine file, as {words, line}, or null. It reads it before the program, so that the least
    program serves. */
export async function machineFaultOf(tool, state) {
  if (state.environment !== OWN || !tool.has('lab')) return null;
  const words = WORDS.timeline({ ...state, budget: '1000000' });
  const { text } = await tool.call('lab', words, { ...LEAST, [MACHINE]: state.machine });
  const [line] = text.split('\n');
  return /machine/.test(line) ? machineFault(state.machine, line) : null;
}

/** What the runs tell with partitions, and where all labels share the caches: {partitioned, shared}, each {leak} or
    {refusal}. `banks` is the machine's text. */
export async function comparedOf(tool, state, banks) {
  const found = {};
  for (const side of ['partitioned', 'shared']) {
    const asked = onSide(state, banks, side), answer = await tool.call('lab', WORDS.leak(asked), files(asked));
    found[side] = answer.status === DONE ? { leak: readLeak(answer.text) } : { refusal: refusalOf(answer) };
  }
  return found;
}

/** What the runs tell, exactly, by the lab; null where it is not there or refuses. */
export async function leakOf(tool, state) {
  if (!tool.has('lab')) return null;
  const { status, text } = await tool.call('lab', WORDS.leak(state), files(state));
  return status === DONE ? readLeak(text) : null;
}

/** What all starts of a space tell, by the lab: {space} with the leak, or {refusal}. */
export async function spaceOf(tool, state) {
  const answer = await tool.call(tool.has('lab') ? 'lab' : 'mitigate',
    tool.has('lab') ? WORDS.leak(state) : WORDS.audit(state), files(state));
  const leak = answer.status === DONE ? readLeak(answer.text) : null;
  return leak ? { space: leak } : { refusal: { ...refusalOf(answer), isOfSpace: true } };
}

/** Whether the program is constant in time for the observer, by the lab; a yes has as `end` the answer to the same of
    its end. Null where the lab is not in the module. */
export async function steadyOf(tool, state) {
  if (!tool.has('lab')) return null;
  const judged = async (words) => readSteady((await tool.call('lab', words, { [PROGRAM]: state.program })).text);
  const steady = await judged(WORDS.steady(state));
  return steady.kind === 'yes' ? { ...steady, end: await judged(WORDS.steadyEnd(state)) } : steady;
}

async function byLab(tool, state, isRefused) {
  const words = isRefused ? WORDS.timelineRefused(state) : WORDS.timeline(state);
  const all = await tool.call('lab', words, files(state)), told = readTimeline(all.text);
  if (!told) return { refusal: refusalOf(all) };
  const seen = await tool.call('lab', asSeen(words, state), files(state));
  return { runs: markSeen(told.runs, readTimeline(seen.text).runs), mitigates: told.mitigates, isAll: true };
}

async function single(tool, state, starts, k, words) {
  const alone = files({ ...state, starts: oneStart(starts, k) });
  const answer = await tool.call('mitigate', words, alone);
  return answer.status === DONE || answer.status === OUT_OF_BUDGET ? readRun(answer.text) : refusalOf(answer);
}

async function byRuns(tool, state, most) {
  const starts = readStarts(state.starts);
  if (starts.fault) {
    return { refusal: { kind: 'starts', text: `the page cannot take these starts apart: ${starts.fault}` } };
  }
  const count = Math.min(starts.runs.length, most), all = [], seen = [];
  for (let k = 0; k < count; k++) {
    for (const [list, words] of [[all, WORDS.run(state)], [seen, asSeen(WORDS.run(state), state)]]) {
      const run = await single(tool, state, starts, k, words);
      if (!run.events) return { refusal: run };
      list.push(run);
    }
  }
  return { runs: markSeen(all, seen), mitigates: null, isAll: count === starts.runs.length };
}

/** The runs with their assignments and ends, and with mitigations where the lab is there: {runs, mitigates} or
    {refusal}. */
export async function runsOf(tool, state, most = MOST_SINGLE_RUNS) {
  return withClasses(tool.has('lab') ? await byLab(tool, state, false) : await byRuns(tool, state, most));
}

/** The runs of a refused program, by its least labels, as the lab tells them; null where it is not there or refuses. */
export async function refusedRunsOf(tool, state) {
  const told = tool.has('lab') ? await byLab(tool, state, true) : {};
  return told.runs ? withClasses(told) : null;
}

function withClasses(told) {
  if (told.runs) classesOf(told.runs).forEach((number, k) => Object.assign(told.runs[k], { class: number }));
  return told;
}

/** Whether the lab of the module tells the best first predictions. */
export async function knowsTune(tool) {
  return tool.has('lab') && (await tool.call('lab', WORDS.helpTune(), {})).status === DONE;
}

/** The first predictions of a mitigate that no other one betters, by the lab: what `readTune` tells, or {refusal}. */
export async function tuneOf(tool, state, { mark }) {
  const answer = await tool.call('lab', WORDS.tune({ ...state, mark }), files(state));
  return (answer.status === DONE ? readTune(answer.text) : null) ?? { refusal: refusalOf(answer) };
}

/** One point of the sweep: how many sequences a first prediction leaves, the shortest and the longest run, and where
    the lab tells it the least first prediction that no body reaches. Null where the tool refuses, as where not all runs
    halt: what those tell and cost, and how long their bodies are, is not known. */
export async function pointOf(tool, state, mitigate, prediction) {
  const tried = { ...state, program: withEstimate(state.program, mitigate, prediction) };
  const audit = await counted(tool, tried);
  if (audit.status !== DONE) return null;
  const report = readAudit(audit.text);
  const told = tool.has('lab') ? await labEnds(tool, tried) : await singleEnds(tool, tried, report.runs);
  if (!told) return null;
  const shortest = Math.min(...told.ends), longest = Math.max(...told.ends);
  return { prediction, sequences: report.distinct, shortest, longest, least: told.least(mitigate) };
}

async function labEnds(tool, state) {
  const told = readTimeline((await tool.call('lab', asSeen(WORDS.timeline(state), state), files(state))).text);
  if (!told) return null;
  return { ends: told.runs.map((run) => run.end), least: (mitigate) => told.mitigates[mitigate.mark]?.least ?? null };
}

async function singleEnds(tool, state, count) {
  const starts = readStarts(state.starts), ends = [];
  if (starts.fault) return null;
  for (let k = 0; k < Math.min(count, MOST_SINGLE_RUNS); k++) {
    const run = await single(tool, state, starts, k, asSeen(WORDS.run(state), state));
    if (!run.events) return null;
    ends.push(run.end);
  }
  return { ends, least: () => null };
}
