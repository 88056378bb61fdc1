// A run, step by step, with what is so after each.

import assert from 'node:assert/strict';
import test from 'node:test';
import { readTimeline } from '../src/answers.js';
import { stateAfter, stepsOf, stepText } from '../src/steps.js';

const PROGRAM = 'var h : H;\nvar l : L;\nvar a[2] : H;\nmitigate (1, H) {\n  h := 1;\n  h := 2;\n  a[1] := 3\n};\n'
  + 'l := 1\n';
// A run as the lab's timeline tells it: predictions are missed, and h, which two lines assign, has no line.
const [RUN] = readTimeline('run 1\nbegin #0 4:1 level H estimate 1 predicts 1 misses 0 @3\nh = 1 @5\nh = 2 @1007\n'
  + 'a[1] = 3 @1010\nend #0 4:1 level H worked 1008 lasts 1024 misses 0 to 10 @1027\nl = 1 @1030\nend @1031\n').runs;
const STEPS = stepsOf(PROGRAM, RUN), plain = (text) => text.replaceAll('\u202f', ' ');

test('steps stand in the order of their cycles, with their lines where the timeline tells them', () => {
  assert.deepEqual(STEPS.map(({ cycle, kind, line }) => [cycle, kind, line]), [
    [3, 'begin', 4], [5, 'assign', null], [1007, 'assign', null], [1010, 'assign', 7], [1027, 'end', 4],
    [1030, 'assign', 9], [1031, 'halt', null],
  ]);
  const cut = readTimeline('run 1\nbegin #0 4:1 level H estimate 1 predicts 1 misses 0 @3\nlimit @4\n').runs[0];
  assert.deepEqual(stepsOf(PROGRAM, cut).map(({ kind }) => kind), ['begin', 'limit']);
});

test('miss counts, open mitigations and values after a step', () => {
  const after = (number) => {
    const { misses, open, values } = stateAfter(STEPS, number);
    return [[...misses], open.map(({ place }) => place), [...values]];
  };
  assert.deepEqual(after(0), [[['H', 0]], ['4:1'], []]);
  assert.deepEqual(after(2), [[['H', 0]], ['4:1'], [['h', '2']]]);
  assert.deepEqual(after(4), [[['H', 10]], [], [['h', '2'], ['a[1]', '3']]]);
});

test('a step in words', () => {
  const text = (number) => plain(stepText(STEPS, number, 2));
  assert.equal(text(0), 'Run 2, step 1 of 7, cycle 3: mitigate at 4:1, level H, begins and predicts 1. Misses: H 0.'
    + ' Predicted: 4:1 until 4.');
  assert.equal(text(3), 'Run 2, step 4 of 7, cycle 1 010: a[1] = 3. Misses: H 0. Predicted: 4:1 until 4. Values: h = 2,'
    + ' a[1] = 3.');
  assert.match(text(4), /cycle 1 027: mitigate at 4:1, level H, ends: worked 1 008, waited 16\. Misses: H 10\. Values/);
  assert.match(text(6), /^Run 2, step 7 of 7, cycle 1 031: the run ends\. /);
});
