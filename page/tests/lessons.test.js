// The lessons and their tasks: each can be read, each task can be done and is not done at its beginning, on the module;
// and tasks that a teacher makes.

import assert from 'node:assert/strict';
import fs from 'node:fs';
import test from 'node:test';
import { readTimeline } from '../src/answers.js';
import { labelsOf, writtenLabels } from '../src/decorations.js';
import { countedStarts } from '../src/examples.js';
import { checksOf, checksText, factsOf, readGoal } from '../src/goals.js';
import { readProgram } from '../src/language.js';
import { lessonsOf } from '../src/lesson.js';
import { linkOf, stateOf } from '../src/link.js';
import { call } from '../src/module.js';
import { readStarts } from '../src/starts.js';
import { isSteady } from '../src/steady_text.js';
import { auditOf, comparedOf, completedBy, runsOf, sharpOf, steadyOf, verdictOf } from '../src/study.js';
import { readTask, taskCourse, taskOfForm } from '../src/tasks.js';
import { moduleBytes } from './built_module.js';

const files = new Proxy({}, {
  get: (_, name) => fs.readFileSync(new URL(`../../examples/${name}`, import.meta.url), 'utf8'),
});
const LESSONS = lessonsOf(files), STEPS = LESSONS.flatMap((lesson) => lesson.steps);
const USUAL = { observer: 'L', environment: 'part', budget: '1000000' };
const bytes = moduleBytes(), skip = bytes ? false : 'there is no page/index.html yet';
const tool = () => {
  const module = new WebAssembly.Module(bytes);
  return { has: () => true, call: async (program, words, texts) => call(module, program, words, texts) };
};

// What is known of a program and its starts, as the page would know it.
async function factsAbout(asking, state, given) {
  const verdict = await verdictOf(asking, state), isAccepted = verdict.kind === 'accepted';
  const completed = isAccepted ? await completedBy(asking, state) : null;
  const labels = (completed && labelsOf(completed)) ?? writtenLabels(state.program);
  const shown = { verdict, labels, audit: null, runs: null, isAll: true };
  if (isAccepted) {
    const audit = await auditOf(asking, state),
      sharp = audit.report && !audit.isCut && audit.sharp === undefined ? await sharpOf(asking, state) : null;
    Object.assign(shown, { audit: { sharp, ...audit } }, await runsOf(asking, state));
  }
  const begun = { program: given.program, starts: given.starts, labels: writtenLabels(given.program).of };
  return factsOf({ state, shown, fresh: () => true, given: begun });
}
const isDone = (goal, facts) => checksOf(goal, facts).every((check) => check.isDone);

test('four lessons, whose steps can be read and name a part of the page', () => {
  assert.deepEqual(LESSONS.map(({ steps }) => steps.length), [6, 6, 5, 4]);
  for (const { title, program, starts, look, guess, text, task } of STEPS) {
    assert.ok(readProgram(program) && !readStarts(starts).fault, title);
    assert.ok(['program', 'time', 'answer', 'starts', 'sweep', 'leak', 'machine'].includes(look), title);
    assert.ok(text.length > 0 && (guess || task), title);
    if (guess) assert.ok(guess.options.length > 1 && guess.options[guess.right] && guess.tells, title);
  }
});

// What does each task, by the step's title.
const SOLUTIONS = {
  'A secret': ({ program }) => ({ program: program.replace('done : L', 'done : H') }),
  'How much is told': () => ({ starts: countedStarts('secret', 0, 60) }),
  'A better prediction': ({ program }) => ({ program: program.replace('(1, H)', '(126, H)') }),
  'An audited mitigation': () => ({ budget: '511' }),
  'It is the caches': () => ({ environment: 'flat' }),
  'One duration for all': ({ program }) => ({ program: program.replace('(2200, H)', '(1762, H)') }),
  'For every key': () => ({ budget: '4399' }),
  'All bytes, always': ({ program }) => ({
    program: program.replace('same * (at < 8)', 'at < 8')
      .replace('sent[at] == tag[at];', 'same * (sent[at] == tag[at]);'),
  }),
  'Or a mitigate around it': ({ program }) => ({ program: program.replace('(600, H)', '(261, H)'), budget: '521' }),
  'A machine that keeps the law': ({ machine }) => ({ machine: machine.replace('"shared"', '"partitioned"') }),
  'Another machine, another prediction': ({ program }) => ({ program: program.replace('(460, H)', '(1444, H)') }),
};
// And what nearly does it.
const NEARLY = {
  'A better prediction': ({ program }) => ({ program: program.replace('(1, H)', '(256, H)') }),
  'An audited mitigation': () => ({ budget: '512' }),
  'It is the caches': () => ({ environment: 'part' }),
  'One duration for all': ({ program }) => ({ program: program.replace('(2200, H)', '(1000, H)') }),
  'For every key': () => ({ budget: '4400' }),
  'All bytes, always': ({ program }) => ({ program: program.replace('same * (at < 8)', 'at < 8') }),
  'Or a mitigate around it': ({ program }) => ({ program: program.replace('(600, H)', '(260, H)'), budget: '521' }),
  'A machine that keeps the law': ({ machine }) => ({ machine: machine.replace(/^second.*$/m, '') }),
  'Another machine, another prediction': ({ program }) => ({ program: program.replace('(460, H)', '(1443, H)') }),
};

test('each task of the lessons can be done, and is seen to be on the module', { skip }, async () => {
  const asking = tool(), tasks = STEPS.filter((step) => step.task);
  assert.deepEqual(tasks.map((step) => step.title).sort(), Object.keys(SOLUTIONS).sort());
  for (const step of tasks) {
    const begun = { ...USUAL, ...step }, facts = async (more) => factsAbout(asking, { ...begun, ...more }, step);
    assert.ok(!isDone(step.task.goal, await facts({})), `${step.title}: not done at its beginning`);
    assert.ok(isDone(step.task.goal, await facts(SOLUTIONS[step.title](step))), `${step.title}: done`);
    if (NEARLY[step.title]) {
      assert.ok(!isDone(step.task.goal, await facts(NEARLY[step.title](step))), `${step.title}: nearly`);
    }
  }
});

test('what the lessons tell of ends and verdicts is so on the module', { skip }, async () => {
  const asking = tool();
  const ends = async (title, more = {}) => {
    const state = { ...USUAL, ...STEPS.find((step) => step.title === title), ...more };
    const words = ['timeline', 'program.mit', 'starts.toml', '--env', state.environment];
    const { text } = await asking.call('lab', words, { 'program.mit': state.program, 'starts.toml': state.starts });
    return readTimeline(text).runs.map((run) => run.end);
  };
  const six = await ends('Time tells');
  assert.deepEqual(six.slice(1).map((end, k) => end - six[k]), [8, 8, 8, 8, 8]);
  assert.deepEqual([...new Set(await ends('A mitigation'))].length, 2);
  assert.deepEqual(await ends('Two look-ups'), [1763, 1763, 1775, 1795]);
  assert.deepEqual(await ends('Or no secret address'), [11267, 11267, 11267, 11267]);
  const tag = await ends('A tag, byte by byte');
  assert.ok(tag[0] < tag[1] && tag[1] < tag[2] && tag[2] === tag[3] && tag[3] === 290, `${tag}`);
  assert.deepEqual(await ends('With all of it H'), [277, 277, 277, 277]);
  for (const title of ['A secret', 'A public end', 'Constant, and refused']) {
    assert.equal((await verdictOf(asking, STEPS.find((step) => step.title === title))).kind, 'refused', title);
  }
  const steady = await steadyOf(asking, { ...USUAL, ...STEPS.find((step) => step.title === 'Constant, and refused') });
  assert.ok(isSteady(steady) && steady.end.kind === 'yes', 'what is told of constant time');
});

test('what the lesson on shared caches tells is so on the module', { skip }, async () => {
  const asking = tool(), steps = LESSONS.at(-1).steps.map((step) => ({ ...USUAL, ...step }));
  const alone = await auditOf(asking, steps[0]), sharp = await sharpOf(asking, steps[0]);
  assert.deepEqual([alone.report.runs, alone.report.distinct, sharp.sharp], [16, 1, 1n]);
  const { report, sharp: none } = await auditOf(asking, steps[1]);
  assert.deepEqual([report.runs, report.distinct, report.sharing, none], [16, 16, 'shared', null]);
  const { partitioned, shared } = await comparedOf(asking, steps[1], steps[1].machine);
  assert.deepEqual([partitioned.leak.distinct, partitioned.leak.sharp, shared.leak.distinct], [1, 1n, 16]);
  assert.equal((await auditOf(asking, { ...steps[3], environment: 'part' })).report.distinct, 1, '460 is enough there');
});

const KNOWN = {
  kind: 'accepted', mitigates: 1, sequences: 3, sharp: 16n, longest: 553, last: [new Map([['l', '1']])],
  isSameEnd: false, runs: 9,
  isSameProgram: true, isSameStarts: true, isSameLabels: true,
};

test('each kind of goal is reached exactly where it says so', () => {
  const reached = (goal, more = {}) => isDone(goal, { ...KNOWN, ...more });
  for (const [goal, no] of [
    [{ accepted: true }, { kind: 'refused' }], [{ sequences: 3 }, { sequences: 4 }],
    [{ sequences: 3 }, { sequences: null }],
    [{ leastSequences: 3 }, { sequences: 2 }], [{ sharp: 16 }, { sharp: 17n }], [{ sharp: 16 }, { sharp: null }],
    [{ longest: 553 }, { longest: 554 }], [{ runs: 9 }, { runs: 8 }], [{ values: { l: ['1'] } }, { last: [new Map()] }],
    [{ values: { l: ['1'] } }, { last: null }], [{ sameProgram: true }, { isSameProgram: false }],
    [{ sameStarts: true }, { isSameStarts: false }], [{ sameLabels: true }, { isSameLabels: false }],
  ]) {
    assert.ok(reached(goal), JSON.stringify(goal));
    assert.ok(!reached(goal, no), `${JSON.stringify(goal)} with others`);
  }
  assert.ok(reached({ noMitigate: true }, { mitigates: 0 }) && !reached({ noMitigate: true }));
  assert.ok(reached({ sameEnd: true }, { isSameEnd: true }) && !reached({ sameEnd: true }));
  assert.ok(reached({ refused: true }, { kind: 'refused' }) && !reached({ refused: true }));
  const text = checksText(checksOf({ accepted: true, sequences: 1 }, KNOWN)).replace(/<[^>]*>/g, '');
  assert.equal(text, '✓done:  the program is accepted○not yet:  the observer cannot tell the runs apart (now: 3'
    + ' sequences)');
});

test('facts are of what is there alone', () => {
  const state = { program: 'p', starts: 's' }, given = { program: 'p', starts: 's', labels: new Map([['l', 'L']]) };
  const run = (end, halted = true) =>
    ({ end, halted, events: [{ variable: 'l', value: '1' }, { variable: 'l', value: '2' }] });
  const shown = {
    verdict: { kind: 'accepted', mitigates: 0 }, labels: { of: new Map([['l', 'L'], ['h', 'H']]) }, isAll: true,
    audit: { report: { distinct: 2 }, isCut: false, sharp: { sharp: 4n } }, runs: [run(7), run(9)],
  };
  const facts = (more = {}, isFresh = () => true) =>
    factsOf({ state, given, shown: { ...shown, ...more }, fresh: isFresh });
  assert.deepEqual(facts(), {
    kind: 'accepted', mitigates: 0, sequences: 2, sharp: 4n, longest: 9,
    last: [new Map([['l', '2']]), new Map([['l', '2']])],
    isSameEnd: false, runs: 2, isSameProgram: true, isSameStarts: true, isSameLabels: true,
  });
  assert.equal(facts({ runs: [run(7), run(7)] }).isSameEnd, true);
  const endless = facts({ runs: [run(7), run(7, false)] });
  assert.deepEqual([endless.longest, endless.isSameEnd, endless.runs], [null, false, 2]);
  assert.equal(facts({ audit: { report: { distinct: 2 }, isCut: true } }).sequences, null);
  assert.equal(facts({ labels: { of: new Map([['l', 'H']]) } }).isSameLabels, false);
  const old = facts({}, () => false);
  assert.deepEqual([old.kind, old.sequences, old.sharp, old.longest, old.runs, old.isSameLabels],
    [null, null, null, null, null, false]);
  assert.equal(factsOf({ state: { program: 'p', starts: 'x' }, given, shown, fresh: () => true }).isSameStarts, false);
});

const FORM = { title: ' T ', says: ' do ', goals: { accepted: true, sequences: 2 }, ask: '', answers: '', tells: '' };

test('a form makes a task, or says what is missing', () => {
  assert.deepEqual(taskOfForm(FORM).task,
    { title: 'T', says: 'do', goal: { accepted: true, sequences: 2 }, guess: null });
  const asks = { ...FORM, ask: ' which? ', answers: 'a\n\n* b\nc\n', tells: ' so ' };
  assert.deepEqual(taskOfForm(asks).task.guess, { ask: 'which?', options: ['a', 'b', 'c'], right: 1, tells: 'so' });
  for (const [more, words] of [
    [{ goals: { sequences: 0 } }, /number/], [{ goals: { sequences: NaN } }, /number/], [{ says: ' ' }, /to be done/],
    [{ goals: {} }, /a goal, or a question/], [{ ask: 'q', answers: '* a' }, /two answers/],
    [{ ask: 'q', answers: 'a\nb' }, /a star/], [{ ask: 'q', answers: '*a\n*b' }, /a star/],
    [{ says: 'x'.repeat(5000) }, /too long/],
  ]) assert.match(taskOfForm({ ...FORM, ...more }).fault, words);
  const { steps: [step] } = taskCourse(taskOfForm(asks).task, { program: 'p', starts: 's' });
  assert.deepEqual([step.title, step.program, step.task.says, step.guess.right], ['T', 'p', 'do', 1]);
});

test('a link holds a task, and only what can be one', async () => {
  const state = { program: 'skip', starts: '[[run]]\n', ...USUAL }, { task } = taskOfForm(FORM);
  assert.deepEqual(await stateOf(await linkOf(state, task)), { ...state, task });
  assert.deepEqual(await stateOf(await linkOf(state)), state);
  const bad = { ...task, goal: { accepted: 'yes', values: {}, sequences: 1.5, sharp: -1, longest: 2 ** 41 } };
  assert.deepEqual(await stateOf(await linkOf(state, bad)), state, 'what is no task is left out');
  assert.equal(readGoal({ sequences: 2 ** 40 }).sequences, 2 ** 40);
  const guess = { ask: 'q', options: ['a', 'b'], right: 1, tells: '' };
  assert.ok(readTask({ title: '', says: '', guess }));
  for (const wrong of [{ right: 2 }, { options: ['a'] }, { options: ['a', 1] }, { ask: '' }, { tells: 1 }]) {
    assert.equal(readTask({ title: '', says: '', guess: { ...guess, ...wrong } }), null, JSON.stringify(wrong));
  }
  for (const nothing of [null, 1, {}, { title: 'x', says: 'y' }]) assert.equal(readTask(nothing), null);
});
