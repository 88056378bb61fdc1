// What the listed runs tell, exactly: read, drawn and said. Numbers are worked out by hand from the rules of
// docs/FORMATS.md beside each test.

import assert from 'node:assert/strict';
import test from 'node:test';
import { readLeak } from '../src/answers.js';
import { commandLines } from '../src/commands.js';
import { isFresh } from '../src/freshness.js';
import { histogram, MOST_CLASSES } from '../src/histogram.js';
import { leakNumbers, leakSentence, noLeakText } from '../src/leak_text.js';
import { jsonOf } from '../src/saved.js';
import { leakOf } from '../src/study.js';

const plain = (html) => html.replace(/<sup>/g, '^').replace(/<[^>]*>/g, '|').replaceAll('\u202f', ' ')
  .replace(/\|+/g, '|').trim();

// Nine starts in classes of one, six and two runs: log2 3 = 1.58496250072; 1/9 log2 9 + 6/9 log2 9/6 + 2/9 log2 9/2 =
// 0.352 + 0.390 + 0.482 = 1.224; right at first 1 of 9 before, and one in each of three classes after; (9 + 1) / 2
// guesses before, and (1 + 36 + 4 + 9) / 18 after.
const TEXT = `runs 9
observer L
budget 1000000
bound 2^20
sharp 16
shared 15
own 14
distinct 3
least 1 greatest 6
min-entropy 1.584962500 to 1.584962501
shannon 1.224394444 to 1.224394447
right at first 1 of 9 before, 3 of 9 after
guesses 10/2 before, 50/18 after
class 1 first 1\tdone=1@168
class 6 first 2\tdone=1@296
class 2 first 8\ta[1]=-7@20 done=1@552
`;
const leak = readLeak(TEXT);

test('a leak as it is told', () => {
  const { classes, ...numbers } = leak;
  assert.deepEqual(numbers, {
    runs: 9, observer: 'L', budget: 1000000, base: 2, exponent: 20, sharp: 16n, shared: 15n, own: 14n, distinct: 3,
    least: 1, greatest: 6,
    minEntropy: ['1.584962500', '1.584962501'], shannon: ['1.224394444', '1.224394447'],
    right: { before: 1, after: 3 }, guesses: { before: [10, 2], after: [50, 18] },
  });
  assert.deepEqual(classes.map(({ size, first }) => [size, first]), [[1, 1], [6, 2], [2, 8]]);
  assert.deepEqual(classes[2].events,
    [{ variable: 'a[1]', value: '-7', cycle: 20 }, { variable: 'done', value: '1', cycle: 552 }]);
  assert.equal(readLeak(TEXT.replace('sharp 16', 'sharp 2^128 or more')).sharp, undefined);
  assert.equal(readLeak(TEXT.replace('shared 15', 'shared 2^128 or more')).shared, undefined);
  assert.equal(readLeak(TEXT.replace('own 14', 'own 2^128 or more')).own, undefined);
  assert.deepEqual(readLeak(TEXT.replace(/done=1@168/, '-')).classes[0].events, []);
  for (const other of ['disagree: run 2: variable h\n', TEXT.replace('distinct 3', 'distinct 4'),
    TEXT.replace(/^shannon.*\n/m, ''), `${TEXT}more\n`]) assert.equal(readLeak(other), null);
});

test('a bar a class, as long as it has runs, in the colour and shape of the class', () => {
  // of the greatest, 6: 100/6 = 16.67, 100, 200/6 = 33.33
  const rows = histogram(leak).split('<tr>').slice(2);
  assert.equal(rows.length, 3);
  ['16.67%', '100%', '33.33%'].forEach((width, k) => {
    const drawn = `<rect width="${width}" height="14" rx="2" fill="var(--c${k})"/>`;
    assert.ok(rows[k].includes(drawn), rows[k]);
  });
  assert.match(rows[0], /<circle cx="6" cy="6" r="4.4" fill="var\(--c0\)"/);
  // a square of 2 * 0.9 * 4.4 about 6, 6
  assert.match(rows[1], /<polygon points="2.04,2.04 9.96,2.04 9.96,9.96 2.04,9.96" fill="var\(--c1\)"/);
  assert.deepEqual(rows.map(plain), [
    '|1|1 run|run 1|done = 1 @168|', '|2|6 runs|run 2|done = 1 @296|', '|3|2 runs|run 8|a[1] = -7 @20, done = 1 @552|',
  ]);
  assert.match(rows[2], /data-first="8" aria-label="Look at run 8, the first one of class 3"/);
});

test('of very many classes the first ones are drawn, and it says so', () => {
  const classes = Array.from({ length: MOST_CLASSES + 5 }, (_, k) => ({
    size: 1, first: k + 1, events: [{ variable: '<', value: String(k), cycle: 9 }],
  }));
  const text = histogram({ classes, greatest: 1 });
  assert.equal(text.split('<tr>').length - 2, 100);
  assert.match(text, /100 of 105 classes are drawn here/);
  assert.match(text, /&lt; = 7 @9/);
  // with six colours and five shapes the seventh class has the first colour and the second shape
  assert.match(text.split('<tr>')[8], /<polygon points="[^"]*" fill="var\(--c0\)"/);
});

test('what the runs show, in a sentence', () => {
  const said = (sizes) => leakSentence({
    runs: sizes.reduce((sum, size) => sum + size, 0), distinct: sizes.length,
    classes: sizes.map((size, k) => ({ size, first: 3 + k })),
  });
  assert.equal(leakSentence(leak), 'These nine runs show three different things. What run 1 shows, no other one does.');
  assert.equal(said([2, 2]), 'These four runs show two different things.');
  assert.equal(said([1, 2, 1, 30]), 'These 34 runs show four different things. 2 of them show what no other one does.');
  assert.equal(said([1, 1]), 'These two runs show two different things: each tells its start.');
  assert.equal(said([4]), 'These four runs show one and the same thing: they tell nothing of their starts.');
  assert.equal(said([1]), 'One run shows one thing, and so tells nothing of its start.');
});

test('exact, sharp and bound stand one below the other, with bars by their bits', () => {
  const text = leakNumbers(leak), rows = text.split('<tr>').slice(1).map(plain);
  assert.match(rows[0], /^\|3\|exactly, by these runs: 2 bits\|/);
  assert.match(rows[1], /^\|16\|at most, by the sharp count: 4 bits\|/);
  assert.match(rows[2], /^\|2\^20\|at most, by the bound: 20 bits\|/);
  // 2, 4 and 20 bits of 20
  const widths = [...text.matchAll(/width="([^"]*)" height="14" rx="2" fill="var\(--work\)"/g)]
    .map((found) => found[1]);
  assert.deepEqual(widths, ['10%', '20%', '100%', '11.11%', '33.33%']);
  // 140 bits of bound and 128 or more of the sharp count: 2 / 140, 128 / 140
  const great = leakNumbers({ ...leak, sharp: undefined, base: 2, exponent: 140 });
  assert.match(plain(great), /\|2\^128\| or more\|at most, by the sharp count: 128 bits or more\|/);
  assert.match(great, /width="1.43%".*width="91.43%".*width="100%"/s);
  // one thing alone is no bit
  const none = leakNumbers({ ...leak, distinct: 1, sharp: 1n, base: 1, exponent: 20 });
  assert.match(plain(none), /\|1\|exactly, by these runs: 0 bits\|.*\|1\|at most, by the bound: 0 bits\|/);
  assert.match(none, /<rect width="0%" height="14" rx="2" fill="var\(--work\)"\/>/);
});

test('the chances of the first guess, and how many it takes', () => {
  const text = plain(leakNumbers(leak));
  assert.match(text, /\|1 of 9\|right at first, before the run is seen\|/);
  assert.match(text, /\|3 of 9\|right at first, after it\|/);
  // 50/18 = 2.777
  assert.match(text, /Guesses needed on the average: 5 before, and 50\/18, from 2\.77 to 2\.78, after\./);
  assert.match(plain(leakNumbers({ ...leak, guesses: { before: [5, 2], after: [10, 8] } })),
    /average: 2\.5 before, and 1\.25 after\./);
});

test('entropies are intervals, as they are told', () => {
  const text = plain(leakNumbers(leak));
  assert.match(text, /\|1\.584962500 to 1\.584962501\|better is the first guess: \|min-entropy\|/);
  assert.match(text, /\|1\.224394444 to 1\.224394447\|told of the start on the average: \|Shannon entropy\|/);
});

test('why there is no exact leak', () => {
  const report = { budget: 1000 }, accepted = { kind: 'accepted' };
  assert.match(noLeakText({ verdict: { kind: 'refused' } }), /^What runs tell is counted of accepted programs/);
  assert.match(plain(noLeakText({ verdict: accepted, audit: { report, isCut: true }, leak: null })),
    /^Not all of these runs have halted by cycle 1 000\./);
  assert.match(noLeakText({ verdict: accepted, audit: { refusal: {} }, leak: null }), /^There is no count/);
  assert.equal(noLeakText({ verdict: accepted, audit: { report }, leak }), '');
  assert.equal(noLeakText({ verdict: { kind: 'syntax' }, audit: null, leak: null }), '');
});

const state = { program: 'p', starts: 's', observer: 'bob', environment: 'flat', budget: '77' };

test('the lab is asked with the chosen settings, and its command line is offered', async () => {
  const calls = [];
  const tool = (has, answer) => ({
    has: () => has,
    async call(program, words, files) {
      calls.push([program, ...words].join(' '));
      assert.deepEqual(files, { 'program.mit': 'p', 'starts.toml': 's' });
      return answer;
    },
  });
  assert.equal((await leakOf(tool(true, { status: 0, text: TEXT }), state)).distinct, 3);
  assert.equal(await leakOf(tool(true, { status: 9, text: 'disagree: run 2: variable h\n' }), state), null);
  assert.equal(await leakOf(tool(false), state), null);
  const line = 'lab leak program.mit starts.toml --observer bob --env flat --budget 77';
  assert.deepEqual(calls, [line, line]);
  assert.ok(commandLines(state, 'accepted').some((command) => command.line === `./${line}`));
});

test('it is of the program, the starts and all settings, and it is saved', () => {
  assert.ok(isFresh('leak', { ...state }, state));
  for (const key of Object.keys(state)) assert.ok(!isFresh('leak', { ...state, [key]: 'x' }, state), key);
  assert.equal(JSON.parse(jsonOf({ state, leak })).leak.sharp, '16');
});
