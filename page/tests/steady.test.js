// Whether a program is constant in time: read, said, and kept apart from a leak.

import assert from 'node:assert/strict';
import test from 'node:test';
import { readSteady } from '../src/answers.js';
import { commandLines } from '../src/commands.js';
import { placeRange } from '../src/decorations.js';
import { findingText } from '../src/finding.js';
import { isFresh } from '../src/freshness.js';
import { besideVerdict, isSteady, noText, steadyText } from '../src/steady_text.js';
import { steadyOf } from '../src/study.js';
import { mendText } from '../src/verdict_text.js';

const plain = (html) => html.replace(/<[^>]*>/g, ' ').replaceAll('\u202f', ' ').replace(/\s+/g, ' ').trim();
const labels = { names: ['L', 'H'], of: new Map() };
const YES = 'steady\nobserver L\nparts L\nend not asked\nsees 10 of 19 variables\n';
const NO = 'unsteady guard at 10:1: H does not flow to L\nsame is declared H\n';
const yes = { ...readSteady(YES), end: { kind: 'yes', observer: 'L', sees: 10, of: 19 } }, no = readSteady(NO);
const said = (steady, more = {}) => plain(steadyText(steady, { isRefused: true, labels, ...more }));

test('a yes and a no as they are told', () => {
  assert.deepEqual(readSteady(YES), { kind: 'yes', observer: 'L', sees: 10, of: 19 });
  assert.deepEqual(no, {
    kind: 'no', reason: 'guard', place: { line: 10, column: 1 }, from: 'H', to: 'L', variable: 'same', isDeclared: true,
  });
  const inferred = readSteady('unsteady assigned at 9:1: H does not flow to L\nsecond is inferred H\nlab why p --of'
    + ' second tells why\n');
  assert.deepEqual([inferred.reason, inferred.variable, inferred.isDeclared], ['assigned', 'second', false]);
  const read = readSteady('unsteady read label at 2:1: H does not flow to L\nwhat environments keep for H need not'
    + ' agree\n');
  assert.deepEqual([read.reason, read.variable], ['read label', null]);
  assert.deepEqual(readSteady('too long\n'), { kind: 'other', text: 'too long' });
});

test('a yes says what it is worth', () => {
  const text = said(yes);
  assert.match(text, /^✓ Yes, for an observer at L Starts that agree at or below it show this observer one sequence, /);
  assert.match(text, /up to each cycle, whether or not the runs have halted: in flat, part, part2 and every other /);
  assert.match(text, /They end at one cycle, too\. It sees 10 of 19 variables\./);
  assert.match(text, /The rules refuse it all the same: .* That refusal is no leak\. It speaks of the costs of this /);
  assert.match(steadyText(yes, { isRefused: true, labels }), /^<p class="judgement yes">/);
  assert.doesNotMatch(said(yes, { isRefused: false }), /refuse/);
});

test('a yes of what is seen alone tells why the end may differ', () => {
  const end = readSteady('unsteady sleep at 5:1: H does not flow to L\nh is declared H\n');
  assert.match(said({ ...yes, end }),
    /When they end is not known to be one cycle: how long the sleep at 5:1 lasts goes by h , which is declared H \./);
});

test('a yes that says nothing, or little, is not praised', () => {
  for (const [sees, words] of [[0, /^A yes that says nothing, for an observer at L It sees 0 of 2 variables\./],
    [2, /^A yes that says little, for an observer at L It sees all 2 variables, so none is secret to it\./]]) {
    const weak = { ...yes, sees, of: 2 };
    assert.match(said(weak), words);
    assert.doesNotMatch(steadyText(weak, { isRefused: true, labels }), /judgement yes|✓/);
    assert.ok(!isSteady(weak));
  }
  assert.deepEqual([isSteady(yes), isSteady(no), isSteady(null), isSteady({ kind: 'other' })],
    [true, false, false, false]);
});

test('a no has its reason, its place and the variable to blame, and is no leak', () => {
  const html = steadyText(no, { isRefused: false, labels, declaredAt: { line: 4, column: 5 } }), text = plain(html);
  assert.match(text, /^Not known to be, for an observer at L Since the guard at 10:1 goes by same , which is declared/);
  assert.match(text, /Go on to the end whatever is found, .* A no is no leak: .* so what its runs tell is bounded\.$/);
  assert.match(html, /data-place="10:1" aria-label="Go to 10:1, which may let a secret change what is seen, or when"/);
  assert.match(html, /data-place="4:5" aria-label="same, declared at 4:5">same</);
  assert.doesNotMatch(said(no), /is bounded/);
  assert.match(said({ kind: 'other', text: 'too long' }), /^No answer: too long$/);
  assert.match(said(null), /^The rules bound what an accepted program tells\./);
});

test('each reason has its words', () => {
  const of = (reason) => plain(noText({ ...no, reason }, labels));
  assert.match(of('index'), /^which element is read or assigned at 10:1 goes by same , .* what the caches hold\.$/);
  assert.match(of('operand'), /^a side of the product at 10:1 goes by .* not from −32 768 to 32 767\.$/);
  assert.match(of('sleep'), /^how long the sleep at 10:1 lasts goes by same/);
  assert.match(of('estimate'), /^the estimate at 10:1 goes by same .* how long its mitigate lasts\.$/);
  assert.match(of('assigned'), /^what is assigned at 10:1 goes by same , which is declared H , and L sees it\.$/);
  assert.match(plain(noText({ ...no, isDeclared: false }, labels)), /^the guard at 10:1 goes by same , which has to/);
  assert.match(plain(noText({ ...no, reason: 'read label', variable: null }, labels)),
    /^the command at 10:1 has a read label, and what environments keep for H need not agree\.$/);
  assert.equal(of('jump'), 'jump at 10:1 .');
});

test('a refused program that is constant in time does not look like a leak', () => {
  const verdict = { kind: 'refused', rule: 'T-ASGN', place: { line: 9, column: 1 }, from: 'H', to: 'L', refusals: [] };
  const found = (steady) => plain(findingText({ verdict, audit: null, labels, observer: 'L', steady }));
  assert.equal(found(yes),
    'Refused at 9:1, and yet no leak: starts that agree show an observer at L the same at the same cycles.');
  for (const other of [no, null, { ...yes, sees: 0 }, { ...yes, sees: 19 }]) {
    assert.match(found(other), /No limit holds for how much it tells\.$/);
  }
  assert.match(plain(besideVerdict(yes, labels)), /^✓ Constant in time for L : this refusal is no leak\./);
  assert.match(mendText({ first: 1, last: 2 }, true), /accepts the program, with a limit above what it tells\.$/);
  assert.match(mendText({ first: 1, last: 2 }), /the tool accepts the program\.$/);
});

test('it is asked for the chosen observer: of what is seen, and after a yes of the end too', async () => {
  const calls = [], state = { program: 'p', starts: 's', observer: 'bob', environment: 'flat', budget: '77' };
  const tool = (text, has = true) => ({
    has: () => has,
    async call(program, words, files) {
      calls.push([program, ...words].join(' '));
      assert.deepEqual(files, { 'program.mit': 'p' });
      return { status: 0, text };
    },
  });
  assert.equal((await steadyOf(tool(YES), state)).end.kind, 'yes');
  assert.equal((await steadyOf(tool(NO), state)).end, undefined);
  assert.equal(await steadyOf(tool(YES, false), state), null);
  const line = 'lab steady program.mit --observer bob';
  assert.deepEqual(calls, [line, `${line} --whole`, line]);
  const offered = (steady) => commandLines(state, 'refused', { steady }).map((command) => command.line).slice(4);
  assert.deepEqual([offered(null), offered(no), offered(yes)], [[], [`./${line}`], [`./${line}`, `./${line} --whole`]]);
});

test('it is of the program and the observer', () => {
  const state = { program: 'p', starts: 's', observer: 'L', environment: 'flat', budget: '7' };
  for (const [key, fresh] of Object.entries({
    program: false, observer: false, starts: true, environment: true, budget: true,
  })) assert.equal(isFresh('steady', { ...state, [key]: 'x' }, state), fresh, key);
});

test('a place is marked from its command to the end of its head, or as a word', () => {
  const text = 'var same : H;\nwhile same > 0 do {\n  same := 0\n}\n';
  const marked = (line, column) => {
    const { from, to } = placeRange(text, { line, column });
    return text.slice(from, to);
  };
  assert.equal(marked(2, 1), 'while same > 0 do');
  assert.equal(marked(1, 5), 'same');
  assert.equal(marked(3, 3), 'same := 0');
});
