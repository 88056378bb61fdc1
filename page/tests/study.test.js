import assert from 'node:assert/strict';
import fs from 'node:fs';
import test from 'node:test';
import { mitigates, readProgram } from '../src/language.js';
import { call } from '../src/module.js';
import { moduleBytes } from './built_module.js';
import {
  auditOf, chainOf, completedBy, mendOf, pointOf, refusedRunsOf, runsOf, sharpOf, verdictOf,
} from '../src/study.js';

// A tool that answers by a function of program, words and files, and keeps the calls.
function toolOf(programs, answer) {
  return {
    calls: [],
    has: (program) => programs.includes(program),
    async call(program, words, files) {
      this.calls.push([program, ...words].join(' '));
      return answer(words, files, program);
    },
  };
}

const state = { program: 'var h : H;\nvar l : L;\nmitigate (16, H) { h := 0 };\nl := 1',
  starts: '[[run]]\nmemory = { h = 1 }\n\n[[run]]\nmemory = { h = 2 }\n', observer: 'L', environment: 'part',
    budget: '1000' };
const AUDIT = 'runs 2\nobserver L\nbudget 1000\nlevels 1\nmitigations 1\ndistinct 1\nbound 2^10\nrun 1 class 1\nrun'
  + ' 2 class 1\n';
const done = (text) => ({ status: 0, text });
const runText = (words, files) => {
  const h = /h = (\d)/.exec(files['starts.toml'])[1], all = `h = ${h} @5\nl = 1 @20\nend @21\n`;
  return done(words.includes('--observer') ? all.replace(/^h.*\n/, '') : all);
};
const byWords = (answers) => (words, files) => answers[words[0]](words, files);

test('a verdict and the completed text', async () => {
  const tool = toolOf(['mitigate'],
    byWords({ check: () => ({ status: 1, text: 'refused T-ASGN at 1:1: H does not flow to L\n' }),
      infer: () => ({ status: 1, text: 'refused ..\n' }) }));
  assert.equal((await verdictOf(tool, state)).kind, 'refused');
  assert.equal(await completedBy(tool, state), null);
  assert.deepEqual(tool.calls, ['mitigate check program.mit', 'mitigate infer program.mit']);
});

test('an audit, and a cut where a run has not halted', async () => {
  const whole = toolOf(['mitigate'], byWords({ audit: () => done(AUDIT) }));
  assert.equal((await auditOf(whole, state)).report.distinct, 1);
  assert.deepEqual(whole.calls, ['mitigate audit program.mit starts.toml --observer L --env part --budget 1000']);
  const cut = toolOf(['mitigate'],
    byWords({ audit: () => ({ status: 10, text: 'unfinished: run 1 @999\n' }),
      cut: () => done(AUDIT.replace('mitigations 1', 'ended 1\nhalted 1')) }));
  const found = await auditOf(cut, state);
  assert.deepEqual([found.isCut, found.report.halted], [true, 1]);
  const refused = toolOf(['mitigate'],
    byWords({ audit: () => ({ status: 9, text: 'disagree: run 2: variable l\n' }) }));
  assert.equal((await auditOf(refused, state)).refusal.kind, 'disagree');
});

test('starts of names that are not declared are refused with these names', async () => {
  const tool = (text) => toolOf(['mitigate'], byWords({ audit: () => ({ status: 3, text }) }));
  const asked = { ...state, starts: '[[run]]\nmemory = { h = 1, k = 2 }\n\n[[run]]\nmemory = { j = 2 }\n' };
  const unknown = async (text) => (await auditOf(tool(text), asked)).refusal.unknown;
  assert.deepEqual(await unknown('starts: run 1: unknown key\n'), ['k', 'j']);
  assert.equal(await unknown('starts: run 1: not a number\n'), undefined);
});

test('without the lab each start has two runs of its own, and its parts are left out', async () => {
  const tool = toolOf(['mitigate'], byWords({ run: runText }));
  const told = await runsOf(tool, state);
  assert.deepEqual(told.runs.map((run) => [run.class, run.mitigations, run.events.map((one) => one.isSeen)]),
    [[1, null, [false, true]], [1, null, [false, true]]]);
  assert.equal(tool.calls.length, 4);
  assert.equal(told.mitigates, null);
  assert.equal(await chainOf(tool, state), null);
  assert.equal(await sharpOf(tool, state), null);
  const one = await runsOf(tool, state, 1);
  assert.deepEqual([one.runs.length, one.isAll], [1, false]);
});

test('starts that the page cannot take apart are told', async () => {
  const tool = toolOf(['mitigate'], byWords({}));
  assert.match((await runsOf(tool, { ...state, starts: '[[run' })).refusal.text, /cannot take/);
});

const TIMELINE = (least) =>
  `run 1\nbegin #0 3:1 level H estimate 16 predicts 16 misses 0 @2\nh = 0 @5\nend #0 3:1 level H worked 10 lasts 16`
    + ` misses 0 to 0 @18\nl = 1 @20\nend @21\nrun 2\nl = 1 @22\nlimit @23\nmitigate #0 3:1 ended 1 shortest 10`
      + ` longest 10 missed 0 least ${least}\n`;

test('with the lab two calls tell all runs, also those that have not ended', async () => {
  const tool = toolOf(['mitigate', 'lab'],
    byWords({ timeline: (words) =>
      ({ status: 8, text: words.includes('--observer') ? TIMELINE(11).replace('h = 0 @5\n', '') : TIMELINE(11) }) }));
  const told = await runsOf(tool, state);
  assert.deepEqual(tool.calls.map((call) => call.split(' ').slice(0, 2).join(' ')), ['lab timeline', 'lab timeline']);
  assert.deepEqual(told.runs.map((run) => [run.class, run.halted]), [[1, true], [2, false]]);
  assert.equal(told.mitigates[0].least, 11);
});

const REFUSED = 'refused T-ASGN at 18:1: H does not flow to L; it runs by its least labels, and no bound holds\n';

test('a refused program runs by its least labels, and has no runs without the lab', async () => {
  const text = `${REFUSED}run 1\nl = 1 @5\nend @6\nrun 2\nl = 1 @7\nend @8\n`;
  const tool = toolOf(['mitigate', 'lab'], byWords({ timeline: () => done(text) }));
  const told = await refusedRunsOf(tool, state);
  const words = 'lab timeline program.mit starts.toml --env part --budget 1000';
  assert.deepEqual(told.runs.map((run) => [run.class, run.end]), [[1, 6], [2, 8]]);
  assert.deepEqual(tool.calls, [`${words} --refused`, `${words} --refused --observer L`]);
  assert.equal(await refusedRunsOf(toolOf(['mitigate'], byWords({})), state), null);
  const none = toolOf(['lab'], byWords({ timeline: () => ({ status: 3, text: 'starts: not TOML\n' }) }));
  assert.equal(await refusedRunsOf(none, state), null);
});

test('each question is asked for the chosen observer, caches and number of cycles', async () => {
  const chosen = { ...state, observer: 'M', environment: 'part2', budget: '777' };
  const tool = toolOf(['mitigate', 'lab'], byWords({ audit: () => ({ status: 10, text: 'unfinished: run 1 @777\n' }),
    cut: () => done(AUDIT), bound: () => done(AUDIT), timeline: () => done(TIMELINE(11)) }));
  await auditOf(tool, chosen);
  await sharpOf(tool, chosen);
  await runsOf(tool, chosen);
  const files = 'program.mit starts.toml', settings = '--env part2 --budget 777';
  assert.deepEqual(tool.calls, [
    `mitigate audit ${files} --observer M ${settings}`, `mitigate cut ${files} --observer M ${settings}`,
    `lab bound ${files} --observer M ${settings}`,
    `lab timeline ${files} ${settings}`, `lab timeline ${files} ${settings} --observer M`,
  ]);
  const [mitigate] = mitigates(readProgram(state.program));
  const point = toolOf(['mitigate', 'lab'], byWords({ audit: () => done(AUDIT), timeline: () => done(TIMELINE(11)) }));
  await pointOf(point, chosen, mitigate, 5);
  assert.deepEqual(point.calls,
    [`mitigate audit ${files} --observer M ${settings}`, `lab timeline ${files} ${settings} --observer M`]);
});

test('a point of the sweep puts a number in place of the estimate', async () => {
  const seen = [];
  const answers = { audit: (_, files) =>
    { seen.push(/mitigate \((\d+)/.exec(files['program.mit'])[1]); return done(AUDIT); }, run: runText,
      timeline: () => done(TIMELINE(11)) };
  const [mitigate] = mitigates(readProgram(state.program));
  const plain = await pointOf(toolOf(['mitigate'], byWords(answers)), state, mitigate, 5);
  assert.deepEqual(plain, { prediction: 5, sequences: 1, shortest: 21, longest: 21, least: null });
  const lab = await pointOf(toolOf(['mitigate', 'lab'], byWords(answers)), state, mitigate, 7);
  assert.deepEqual(lab, { prediction: 7, sequences: 1, shortest: 21, longest: 23, least: 11 });
  assert.deepEqual(seen, ['5', '7']);
  assert.equal(await pointOf(
    toolOf(['mitigate'], byWords({ audit: () => ({ status: 9, text: 'disagree: run 2: variable l\n' }) })), state,
      mitigate, 5), null);
});

// What `tools/second-reading` says of examples/password.mit with a budget of 450 cycles and another estimate: with 1
// the first of the four runs of examples/password.toml that does not halt is the third one.
const password = (name) => fs.readFileSync(new URL(`../../${name}`, import.meta.url), 'utf8');
const nine = { program: password('examples/password.mit').replace('(512', '(300'),
  starts: password('page/src/password_nine.toml'), observer: 'L', environment: 'part', budget: '450' };
const CUT = 'runs 4\nobserver L\nbudget 450\nlevels 1\nended 1\nhalted 2\ndistinct 3\nbound 2^9\nrun 1 class 1\nrun'
  + ' 2 class 2\nrun 3 class 3\nrun 4 class 3\n';

test('a prediction with which not all runs halt gives no point, and no cut in its place', async () => {
  const tool = toolOf(['mitigate', 'lab'],
    byWords({ audit: () => ({ status: 10, text: 'unfinished: run 3 @286\n' }), cut: () => done(CUT),
      timeline: () => done(TIMELINE(170)) }));
  const [mitigate] = mitigates(readProgram(nine.program));
  assert.equal(await pointOf(tool, nine, mitigate, 1), null);
  assert.deepEqual(tool.calls, ['mitigate audit program.mit starts.toml --observer L --env part --budget 450']);
});

const bytes = moduleBytes();

test('points on the module, as the second reading has them',
  { skip: bytes ? false : 'there is no page/index.html yet' }, async () => {
  const module = new WebAssembly.Module(bytes);
  const tool = { has: () => true, call: async (program, words, files) => call(module, program, words, files) };
  const [mitigate] = mitigates(readProgram(nine.program));
  const point = (prediction, more = {}) => pointOf(tool, { ...nine, ...more }, mitigate, prediction);
  for (const prediction of [1, 256, 268, 450]) assert.equal(await point(prediction), null, `${prediction}`);
  assert.deepEqual(await point(269), { prediction: 269, sequences: 1, shortest: 310, longest: 310, least: 269 });
  assert.deepEqual(await point(300), { prediction: 300, sequences: 1, shortest: 341, longest: 341, least: 269 });
  assert.deepEqual(await point(1, { budget: '1000000' }),
    { prediction: 1, sequences: 3, shortest: 169, longest: 553, least: 269 });
});

test('the fewest commands that a mitigate mends are offered, and none where none serves', async () => {
  const program = 'var h : H;\nvar l : L;\nh := 1;\nwhile h do { h := h - 1 };\nl := 1';
  const refusal = { rule: 'T-ASGN', place: { line: 5, column: 1 }, from: 'H' };
  const accepts = (form) =>
    toolOf(['mitigate'], byWords(
      { check: (_, files) => ({ status: form.test(files['program.mit']) ? 0 : 1, text: '' }) }));
  const both = await mendOf(accepts(/mitigate \(64, H\) \{\n {2}h := 1/), { ...state, program }, refusal);
  assert.deepEqual([both.first, both.last], [3, 4]);
  assert.match(both.text, /mitigate \(64, H\) \{\n {2}h := 1;\n {2}while h do \{ h := h - 1 \}\n\};\nl := 1$/);
  const other = await mendOf(accepts(/mitigate/), { ...state, program }, { ...refusal, from: 'B' });
  assert.match(other.text, /mitigate \(64, B\) \{/, 'at the level of what does not flow');
  const loop = await mendOf(accepts(/mitigate/), { ...state, program }, refusal);
  assert.deepEqual([loop.first, loop.last], [4, 4]);
  assert.equal(await mendOf(accepts(/never/), { ...state, program }, refusal), null);
  assert.equal(await mendOf(accepts(/mitigate/), { ...state, program }, { ...refusal, rule: 'T-MTG' }), null);
});

test('a mitigate is offered around commands of an outer list too', async () => {
  const program = 'var h : H;\nvar l : L;\nwhile h do { h := h - 1 };\nif l then { l := 1 }';
  const tool = toolOf(['mitigate'],
    byWords({ check: (_, files) => ({ status: /mitigate/.test(files['program.mit']) ? 0 : 1, text: '' }) }));
  const found = await mendOf(
    tool, { ...state, program }, { rule: 'T-ASGN', place: { line: 4, column: 13 }, from: 'H' });
  assert.deepEqual([found.first, found.last], [3, 3]);
});
