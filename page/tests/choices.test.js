// The best first predictions as the lab's `tune` tells them, by an answer that stands in for it: nine runs of the
// password check, of which three kinds are told apart with 16 and 17, two with 256, and none with 269.

import assert from 'node:assert/strict';
import test from 'node:test';
import { readTune } from '../src/answers.js';
import { choiceOf, choicesNote, choicesTable, choicesText, pointsOf } from '../src/choices.js';
import { commandLines } from '../src/commands.js';
import { knowsTune, tuneOf } from '../src/study.js';
import { sweepPicture } from '../src/sweep.js';

const HEAD = 'tune #0 alone, the others as written\nruns 9\nobserver L\nbudget 1000000\n';
const TOLD = `${HEAD}first 17 to 18 told 3 mean 250 greatest 313\nfirst 135 to 268 told 2 mean 280 greatest 311\n`
  + 'first 269 to 1099511627776 told 1 mean 310 greatest 310\n';
const { choices } = readTune(TOLD);
const state = { program: 'skip\n', starts: '[[run]]\n', observer: 'L', environment: 'part', budget: '1000000' };
const plain = (text) => text.replaceAll('\u202f', ' ').replace(/<[^>]+>/g, '|').replace(/\|+/g, '|');

test('an answer, also of a machine', () => {
  assert.deepEqual(readTune(TOLD), {
    mark: 0, runs: 9, choices: [
      { first: 17, last: 18, told: 3, mean: 250, greatest: 313 },
      { first: 135, last: 268, told: 2, mean: 280, greatest: 311 },
      { first: 269, last: 2 ** 40, told: 1, mean: 310, greatest: 310 },
    ],
  });
  assert.equal(readTune(`machine partitioned\n${TOLD}`).choices.length, 3);
  assert.equal(readTune(`machine shared\nno bound: all labels share the banks\n${TOLD}`).runs, 9);
  assert.equal(readTune('tune #0: its estimate is no number\n'), null);
  assert.equal(readTune(`${TOLD}more\n`), null);
  assert.equal(readTune('runs 9\n'), null);
});

test('it is asked of the chosen mitigate, where the module knows it', async () => {
  const asked = [], tool = (status, text) => ({
    has: (program) => program === 'lab',
    async call(program, words) {
      asked.push([program, ...words].join(' '));
      return { status, text };
    },
  });
  assert.equal(await knowsTune(tool(0, 'lab tune FILE STARTS\n')), true);
  assert.equal(await knowsTune(tool(4, 'lab help: tune can\'t stand here\n')), false);
  assert.equal(await knowsTune({ has: () => false }), false);
  assert.equal((await tuneOf(tool(0, TOLD), state, { mark: 2 })).choices.length, 3);
  const refused = await tuneOf(tool(1, 'tune #2: its estimate is no number\n'), state, { mark: 2 });
  assert.equal(refused.refusal.text, 'tune #2: its estimate is no number');
  assert.deepEqual(asked.slice(0, 3), ['lab help tune', 'lab help tune',
    'lab tune program.mit starts.toml --observer L --env part --budget 1000000 --of #2']);
});

test('its command line can be pasted into a shell, where # alone begins a comment', () => {
  const lines = (mark) => commandLines(state, 'accepted', { mark }).map(({ line }) => line);
  assert.ok(lines(1).includes(
    './lab tune program.mit starts.toml --observer L --env part --budget 1000000 --of \'#1\''));
  assert.ok(!lines(null).join().includes('tune'));
});

test('which choice a first prediction is as good as', () => {
  assert.deepEqual([16, 17, 18, 19, 134, 200, 269, 2 ** 40].map((n) => choiceOf(choices, n)?.first ?? null),
    [null, 17, 17, null, null, 135, 269, 269]);
});

test('what the choices say, and why no other one matters', () => {
  const text = (current) => plain(choicesText(choices, current));
  assert.equal(text(269), 'With 269 nothing is told, and all runs end at 310. The 269 that stands there is one of'
    + ' these. No other one does better: each that is not here, from 1 to 1 099 511 627 776, and with which all runs'
    + ' halt in time, tells at least as much as one of these, and its runs end no earlier on the mean. All predictions'
    + ' of one row miss equally often.');
  assert.match(text(512), / The 512 that stands there misses as 269 does, and the runs end no earlier\. No other /);
  assert.match(text(64), / The 64 that stands there is bettered by one of these\. No other /);
  assert.match(text(null), / all runs end at 310\. No other /);
  assert.match(plain(choicesText(choices.slice(0, 2), 17)),
    /^With 135 at most 2 things are told, and the runs end at 280 on the mean, and by 311\. The 17 that/);
  assert.match(choicesText([], 17), /^With no first prediction all runs halt/);
  assert.equal(choicesNote(readTune(TOLD)), '3 choices of 9 runs; the other mitigates stay as written.');
});

test('each choice can be taken, and the one that stands there is named', () => {
  const rows = (current) => choicesTable(choices, current).split('<tr>').slice(2)
    .map((row) => plain(row).replace('|/tbody||/table|', '|'));
  assert.deepEqual(rows(17), [
    '|17|18|3|250|313|stands there|', '|135|268|2|280|311|Take|', '|269|1 099 511 627 776|1|310|310|Take|',
  ]);
  assert.match(choicesTable(choices, 512), /data-take="269" aria-label="Take the prediction 269"/);
});

test('a point a choice, and the ground where nothing is told', () => {
  // 600 wide to 1 024, ten doublings: 269 stands at 58 + 518 * 8.0715 / 10 = 476.1, and to the edge at 576 are 99.9
  const picture = sweepPicture(pointsOf(choices), { width: 600, current: 64, most: 1024 });
  assert.equal(picture.split('class="point"').length - 1, 3);
  assert.match(picture, /<rect x="476\.1\d*" y="30" width="99\.\d+" height="244" fill="var\(--good-tint\)"/);
  assert.match(picture.replaceAll('\u202f', ' '),
    /data-tip="135 to 268: at most 2 things are told, the runs end at 280 on the mean, and by 311"/);
  const ended = pointsOf([{ ...choices[2], last: 300 }, { ...choices[0], first: 400, last: 500 }]);
  // log2(300 / 269) = 0.1573: 8.1 wide
  assert.match(sweepPicture(ended, { width: 600, most: 1024 }), /width="8\.15" height="244" fill="var\(--good-tint\)"/);
  assert.doesNotMatch(sweepPicture(pointsOf(choices.slice(0, 2)), { width: 600, most: 1024 }), /good-tint/);
});
