// What the parts of the page say: numbers, the sentence that was found, the words behind it, the table,
// whose answer is shown.

import assert from 'node:assert/strict';
import test from 'node:test';
import { auditBoxes, auditWords } from '../src/audit_text.js';
import { codeText } from '../src/code_text.js';
import { commandLines } from '../src/commands.js';
import { findingText, isLeaking } from '../src/finding.js';
import { isFresh, ofWhat, staleText } from '../src/freshness.js';
import { boundText, counted, inWords, spaced, wholeBound } from '../src/numbers.js';
import { jsonOf, readFileText } from '../src/saved.js';
import { seenTexts } from '../src/seen.js';
import { readStarts } from '../src/starts.js';
import { addersText, seenText, tableText } from '../src/starts_table.js';
import { faultText, mendText, verdictText, whyText } from '../src/verdict_text.js';

const plain = (html) => html.replace(/<sup>/g, '^').replace(/<[^>]*>/g, '').replaceAll('\u202f', ' ')
  .replace(/\s+/g, ' ').trim();
const labels = { names: ['L', 'H'], of: new Map([['h', 'H'], ['l', 'L'], ['a', 'H']]) };

test('bounds stand whole, or rounded up to three digits, and never down', () => {
  assert.equal(plain(boundText(3562467300n)), '3 562 467 300');
  assert.equal(plain(boundText(9999999999999n)), '9 999 999 999 999');
  assert.equal(plain(boundText(10000000000000n)), '1.00 × 10^13');
  assert.equal(plain(boundText(10000000000001n)), '1.01 × 10^13');
  assert.equal(plain(boundText(35624673000000n)), '3.57 × 10^13');
  assert.equal(plain(boundText(99900000000001n)), '1.00 × 10^14');
  assert.equal(plain(boundText(2n ** 128n - 1n)), '3.41 × 10^38');
  assert.equal(wholeBound(99n), '');
  assert.equal(wholeBound(35624673000000n).replaceAll('\u202f', ' '), 'rounded up from 35 624 673 000 000');
  for (let k = 0n; k < 128n; k++) {
    for (const bound of [2n ** k, 2n ** k + 1n, 10n ** (k % 38n) * 999n + 1n]) {
      const [, whole, part, power] = /^(\d)\.(\d\d) × 10\^(\d+)$/.exec(plain(boundText(bound))) ?? [];
      const told = whole ? BigInt(whole + part) * 10n ** (BigInt(power) - 2n)
        : BigInt(plain(boundText(bound)).replaceAll(' ', ''));
      assert.ok(told >= bound, `${bound} is told as ${told}`);
    }
  }
});

test('counts and words', () => {
  assert.equal(counted(1, 'run'), '1 run');
  assert.equal(counted(1n, 'run'), '1 run');
  assert.equal(counted(0, 'run'), '0 runs');
  assert.equal(counted(2, 'touch', 'touches'), '2 touches');
  assert.deepEqual([inWords(0), inWords(9), inWords(12n), inWords(13)], ['none', 'nine', 'twelve', '13']);
  assert.equal(spaced(1099511627776).replaceAll('\u202f', ' '), '1 099 511 627 776');
});

const report = {
  runs: 9, observer: 'L', budget: 1000000, levels: 1, mitigations: 1, distinct: 3, base: 2, exponent: 20, classes: [],
  levelsOf: [],
};
const sharp = { sharp: 16n, bits: 4, guess: 16n };
const accepted = { kind: 'accepted', commands: 8, mitigates: 1, refusals: [] };
const found = (audit, verdict = accepted) => plain(findingText({ verdict, audit, labels, observer: 'L' }));

test('what was found, in a sentence', () => {
  assert.equal(found({ report, sharp }),
    'Of nine runs an observer at L sees three different timings; at most 16 are possible.');
  assert.equal(
    found({ report: { ...report, distinct: 1 }, sharp }),
    'An observer at L cannot tell these nine runs apart; with other secrets at most 16 are possible.',
  );
  assert.equal(found({ report, sharp: null }),
    'Of nine runs an observer at L sees three different timings; at most 2^20 are possible.');
  const none = { ...report, distinct: 1, base: 1 };
  assert.equal(found({ report: none, sharp: null }),
    'An observer at L cannot tell these nine runs apart; no other is possible.');
  assert.equal(found({ report: { ...none, runs: 1 }, sharp: null }),
    'Of one run an observer at L sees one timing; no other is possible.');
  const cut = { ...report, halted: 1, ended: 2, distinct: 2 };
  assert.equal(
    found({ report: cut, isCut: true, sharp: null }),
    'One of 9 runs has halted by cycle 1 000 000. Until then an observer at L sees two different timings.',
  );
  assert.equal(found({ report: { ...cut, halted: 0, runs: 1, distinct: 1 }, isCut: true }),
    'No run has halted by cycle 1 000 000. Until then an observer at L sees one timing.');
});

test('a limit in a sentence is rounded up too', () => {
  const most = (limit) => found({ report, sharp: { ...sharp, sharp: limit } });
  assert.match(most(999999n), /at most 999 999 are possible/);
  assert.match(most(1000000n), /at most 2\^20 are possible/);
  assert.match(most(2n ** 20n), /at most 2\^20 are possible/);
  assert.match(most(2n ** 20n + 1n), /at most 2\^21 are possible/);
});

test('why nothing was found', () => {
  const refused = { kind: 'refused', rule: 'T-ASGN', place: { line: 18, column: 1 }, from: 'H', to: 'L', refusals: [] };
  assert.equal(found(null, refused),
    'Refused, since at 18:1 what is H would reach L. No limit holds for how much it tells.');
  const runs = [{ class: 1 }, { class: 2 }, { class: 1 }];
  const ofRuns = (list) => plain(findingText({ verdict: refused, audit: null, labels, observer: 'L', runs: list }));
  assert.equal(ofRuns(runs), 'Refused, since at 18:1 what is H would reach L. Of three runs an observer at L sees two'
    + ' timings, and no limit holds.');
  assert.match(ofRuns([{ class: 1 }]), / Of one run an observer at L sees one timing, and no limit holds\.$/);
  assert.equal(found(null, { kind: 'syntax', what: 'unexpected', place: { line: 2, column: 3 } }),
    'This is not a program: unexpected at 2:3.');
  assert.match(found({ refusal: { kind: 'disagree', text: 'disagree: run 2: variable l' } }),
    /run 2 differs from run 1 in the variable l\.$/);
  assert.match(found({ refusal: { kind: 'disagree', text: 'disagree: run 3: partition L of data' } }),
    /run 3 differs .* cache partition L of data\.$/);
  assert.equal(found({ refusal: { kind: 'starts', text: 'starts: not TOML' } }), 'No runs: starts: not TOML.');
  assert.equal(found({ refusal: { kind: 'starts', text: 'starts: run 1: unknown key', unknown: ['guess', 'k'] } }),
    'No runs: the starts give values to guess, k, which the program does not declare. A column can be renamed or'
      + ' dropped below.');
  assert.equal(found(null), '');
  assert.deepEqual([isLeaking({ report }), isLeaking({ report: { ...report, distinct: 1 } }), isLeaking(null)],
    [true, false, false]);
});

test('the numbers, and what they are', () => {
  assert.equal(
    plain(auditBoxes({ report, sharp }).replaceAll('</div>', '; ')),
    '3different sequences seen in these 9 runs; 16at most, by the sharp count: 4 bits; 2^20at most, by the bound: 20'
      + ' bits;',
  );
  const login = { sharp: 417225900n, bits: 29, guess: 417225900n, shared: 23603879n };
  assert.match(plain(auditBoxes({ report, sharp: login })),
    /417 225 900at most, by the sharp count: 29 bits23 603 879at most, by shared time: 25 bits2\^20at most/);
  assert.match(found({ report, sharp: { ...login, shared: 40n } }), /; at most 40 are possible\.$/);
  assert.doesNotMatch(auditBoxes({ report, sharp: { ...sharp, shared: 16n } }), /shared time/);
  // own first predictions, where no other count is as small
  assert.match(plain(auditBoxes({ report, sharp: { ...login, own: 900n } })),
    /by the sharp count: 29 bits900at most, by own first predictions: 10 bits2\^20at most/);
  assert.match(found({ report, sharp: { ...login, own: 41n } }), /; at most 41 are possible\.$/);
  assert.doesNotMatch(auditBoxes({ report, sharp: { ...sharp, shared: 15n, own: 15n } }), /own first/);
  assert.match(plain(auditWords({ report, sharp: { ...login, own: 900n } }, labels, { observer: 'L' })),
    / of its level here, and that by own first predictions where none has one below the least at its place /);
  const holds = (counts) => plain(auditWords({ report, sharp: counts }, labels, { observer: 'L' }));
  assert.match(holds(login), / All limits hold .*; both counts where besides no relevant mitigation /);
  assert.match(holds(sharp), / Both limits hold .*; the sharp count, where besides no relevant mitigation /);
  const three = { ...report, base: 3, distinct: 1, runs: 1 };
  assert.equal(
    plain(auditBoxes({ report: three, sharp: null }).replaceAll('</div>', '; ')),
    '1different sequence seen in this run; 3^20at most, by the bound: 32 bits;',
  );
});

test('the words behind the numbers, with odds as times and information as bits', () => {
  const words = plain(auditWords({ report, sharp }, labels, { observer: 'L' }));
  assert.match(words, /^For an observer at L up to cycle 1 000 000: 1 relevant mitigation in each run, 1 label that /);
  assert.match(words, /, 1 label that does not flow to the observer\./);
  assert.match(words, /guesses the secret right at most 16 times as often as before\.$/);
  assert.match(plain(auditWords({ report, sharp: { ...sharp, guess: 1n } }, labels, {})), /at most 1 time as often/);
  assert.match(
    plain(auditWords({ report, sharp: { ...sharp, countsEnd: true } }, labels, {})),
    / as before\. So it is for one who sees when it ends, too\.$/,
  );
  assert.match(
    plain(auditWords({ report, sharp: { ...sharp, countsEnd: false } }, labels, {})),
    / When it ends is not counted, and may tell more\.$/,
  );
  const cut = { ...report, halted: 4, ended: 2 };
  assert.match(plain(auditWords({ report: cut, isCut: true, sharp: null }, labels, {})),
    /4 of 9 runs have halted; .* 2 relevant mitigations at most ended\./);
  assert.doesNotMatch(plain(auditWords({ report, sharp: null }, labels, {})), /sharp count|guesses/);
});

// Runs by what is seen of them, as [variable, value, cycle], and their classes.
const runsOf = (...lists) => lists.map(([number, ...seen]) => ({
  class: number,
  events: [{ variable: 'h', value: '0', cycle: 1, isSeen: false },
    ...seen.map(([variable, value, cycle]) => ({ variable, value, cycle, isSeen: true }))],
}));
const first = ['l', 1, 5], second = ['l', 2, 6];

test('what is seen of runs reads alike exactly where it is', () => {
  assert.deepEqual(seenTexts(runsOf([1], [2, first])), ['nothing', 'l = 1 @5']);
  assert.deepEqual(
    seenTexts(runsOf([1, first, second, ['l', 3, 9]], [2, first, second, ['l', 3, 11]],
      [1, first, second, ['l', 3, 9]])),
    ['l = 1 @5, l = 2 @6, l = 3 @9', 'l = 1 @5, l = 2 @6, l = 3 @11', 'l = 1 @5, l = 2 @6, l = 3 @9'],
  );
  const long = (at) => [first, second, ['l', 3, 7], ['l', 4, 8], ['l', 5, at], ['l', 6, 99]];
  assert.deepEqual(
    seenTexts(runsOf([1, ...long(20)], [2, ...long(30)])),
    ['l = 1 @5, l = 2 @6, …, l = 5 @20, … (6 in all)', 'l = 1 @5, l = 2 @6, …, l = 5 @30, … (6 in all)'],
  );
  assert.deepEqual(seenTexts(runsOf([1, first, second, ['l', 3, 7]])), ['l = 1 @5, l = 2 @6, … (3 in all)']);
  const shorter = seenTexts(runsOf([1, first, second], [2, first, second, ['l', 3, 7]]));
  assert.equal(new Set(shorter).size, 2, shorter.join(' | '));
});

const state = { program: 'p', starts: 's', observer: 'L', environment: 'part', budget: '9' };

test('an answer is of what is there exactly where nothing that it depends on has changed', () => {
  for (const name of ['audit', 'runs', 'points']) {
    assert.ok(isFresh(name, { ...state }, state));
    for (const key of Object.keys(state)) assert.ok(!isFresh(name, { ...state, [key]: 'x' }, state), `${name}, ${key}`);
    assert.ok(!isFresh(name, state, state, { budget: 'none', cell: '' }));
    assert.ok(!isFresh(name, state, state, { budget: '', cell: 'none' }));
    assert.ok(!isFresh(name, undefined, state));
  }
  for (const name of ['verdict', 'code']) {
    assert.ok(!isFresh(name, { ...state, program: 'x' }, state));
    assert.ok(isFresh(name, { ...state, starts: 'x', observer: 'H', budget: '1', environment: 'flat' }, state,
      { budget: 'none', cell: 'none' }));
  }
});

test('what is dimmed is told, with the reason', () => {
  const of = (key) => ofWhat({ ...state, [key]: 'x' }, state);
  assert.deepEqual(
    Object.keys(state).map(of),
    ['an earlier program', 'earlier starts', 'another observer', 'other caches', 'another number of cycles'],
  );
  const text = (why, more = {}) =>
    staleText({ hasAnswers: true, of: { ...state, program: 'x' }, now: state, why, ...more });
  assert.equal(text('working'), 'The new answer is being worked out. What is dimmed is of an earlier program.');
  assert.equal(text('stopped'), 'The runs were stopped. What is dimmed is of an earlier program.');
  assert.equal(text('syntax'), 'What is here is not a program. What is dimmed is of an earlier program.');
  assert.equal(text('fault', { fault: 'No number.' }), 'No number. What is dimmed is of an earlier program.');
  assert.equal(text('refused', { hasAnswers: false }), 'The program that is here is refused, so no limit holds of it.');
  assert.equal(text('', { hasAnswers: false }), '');
});

const variables = [{ name: 'h', length: null }, { name: 'a', length: 3 }, { name: 'l', length: null }];
const starts = readStarts(
  'version = 2\n[[run]]\nmemory = { h = 1, a = [112, 97] }\n[[run]]\nmemory = { h = 2, z = 7 }\ntouch = [{ place ='
    + ' "data", label = "H", address = 0 }]\n');

test('the table has a row a run and a column a variable, with the values of that run', () => {
  const text = tableText(starts, { variables, labels, observer: 'L' });
  const cells = [...text.matchAll(/<input data-row="(\d+)" data-name="(\w+)" data-array="(\w+)" value="([^"]*)"/g)].map(
    (found) => found.slice(1).join(' '));
  assert.deepEqual(cells, ['0 h false 1', '0 a true &quot;pa&quot;', '0 z false ', '1 h false 2', '1 a true ',
    '1 z false 7']);
  assert.match(text, /data-remove="0" aria-label="Remove run 1".*data-remove="1" aria-label="Remove run 2"/s);
  assert.match(text, /data-copy="1" aria-label="Copy run 2"/);
  assert.match(text, /aria-label="run 2, z"/);
  assert.match(plain(text), /^runh H ×a H ×z not in the program ×seen at Lchange1\+×2 1 touch\+×$/);
  assert.doesNotMatch(text, /disabled/);
  assert.match(tableText(readStarts('[[run]]\n'), { variables, labels, observer: 'L' }), /data-remove="0" disabled/);
});

test('columns that can be added and named, and the variable that a range is for', () => {
  const text = addersText(starts, { variables, labels });
  assert.match(text, /id="add-column"><option><\/option><option>l<\/option><\/select>/);
  assert.match(text, /Rename the column z to <select data-rename="z"><option><\/option><option>l<\/option>/);
  assert.match(text, /id="range-name"><option selected>h<\/option><option>l<\/option>/);
  assert.equal(addersText(starts, { variables: [], labels }), '');
});

test('what is seen of a run has the mark and the number of its class', () => {
  const text = seenText({ class: 2 }, 'l < 1');
  assert.match(text, /<polygon points="[^"]*" fill="var\(--c1\)"/);
  assert.match(text, /<span class="class">2<\/span>.*l &lt; 1$/);
});

test('verdicts in a line, and why', () => {
  assert.equal(plain(verdictText(accepted, labels)), 'Accepted 8 commands, 1 mitigate');
  const refusal = { kind: 'refused', rule: 'T-IF', place: { line: 6, column: 3 }, from: 'H', to: 'L' };
  const refused = { ...refusal, refusals: [refusal, { ...refusal, place: { line: 7, column: 1 } }] };
  assert.equal(plain(verdictText(refused, labels)),
    'Refused by T-IF at 6:3: H does not flow to Lby T-IF at 7:1: H does not flow to L');
  assert.match(verdictText(refused, labels), /data-place="6:3"/);
  assert.match(plain(whyText(refused, [])), /^T-IF: the write label of this command lies too low\.$/);
  assert.equal(whyText(accepted, []), '');
  const steps = [{ place: { line: 6, column: 5 }, text: 'right is declared H' },
    { place: { line: 18, column: 1 }, text: 'done gets it' }];
  assert.match(whyText(refused, steps),
    /data-n="1"><button type="button" data-place="6:5" aria-label="Step 1, 6:5: right is declared H">/);
  assert.match(whyText(refused, steps), /data-n="2"><button type="button" data-place="18:1"/);
  assert.match(mendText({ first: 9, last: 17 }), /Put lines 9 to 17 into a mitigate/);
  assert.match(mendText({ first: 9, last: 9 }), /Put line 9 into a mitigate/);
  const syntax = { kind: 'syntax', what: 'unexpected',
    refusals: [{ what: 'unexpected', place: { line: 2, column: 5 } }] };
  assert.equal(plain(verdictText(syntax, labels)), 'Not a program unexpected at 2:5');
  const told = [{ says: 'found', words: ',' }, { says: 'expected', words: ': ; [' },
    { says: '', words: 'each variable has a var of its own' }];
  assert.equal(faultText(told), '<p class="word">Found <code>,</code></p>'
    + '<p class="word">Here could stand <code>:</code> <code>;</code> <code>[</code></p>'
    + '<p class="word">Each variable has a var of its own.</p>');
  assert.equal(plain(faultText([{ says: 'found', words: 'byte 233' }, { says: 'nearest', words: 'a<b' }])),
    'Found a byte 233Is it a&lt;b?');
});

test('command lines are those of the calls, with the chosen settings', () => {
  const lines = commandLines({ ...state, observer: 'bob', environment: 'part2', budget: '77' }, 'accepted')
    .map((one) => one.line);
  assert.deepEqual(lines.slice(0, 6), [
    './mitigate check program.mit',
    './mitigate audit program.mit starts.toml --observer bob --env part2 --budget 77',
    './lab bound program.mit starts.toml --observer bob --env part2 --budget 77',
    './lab leak program.mit starts.toml --observer bob --env part2 --budget 77',
    './lab timeline program.mit starts.toml --env part2 --budget 77',
    './lab seen program.mit starts.toml --observer bob --env part2 --budget 77',
  ]);
  assert.deepEqual(commandLines(state, 'refused').map((one) => one.line).slice(1), [
    './lab why program.mit', './lab timeline program.mit starts.toml --env part --budget 9 --refused',
    './lab seen program.mit starts.toml --observer L --env part --budget 9 --refused',
  ]);
  assert.match(commandLines(state, 'cut')[1].line, /^\.\/mitigate cut program\.mit starts\.toml /);
  assert.deepEqual(commandLines(state, 'syntax').map((one) => one.line), 
    ['./mitigate check program.mit', './lab why program.mit']);
});

test('instructions have the lines of their commands', () => {
  const code = [['0', 'PUSH', '7', ['L', 'L']], ['1', 'STORE', 'l', ['L', 'L']], ['2', 'PUSH', '8', ['L', 'H']],
    ['3', 'STORE', 'h', ['L', 'H']], ['4', 'HALT', '', ['L', 'L']]]
    .map(([number, name, operand, marks]) => ({ number, name, operand, labels: marks }));
  const text = codeText(code, 'var l : L; var h : H;\nl := 7;\n\nh := 8', labels);
  assert.deepEqual([...text.matchAll(/data-line="(\d+)"/g)].map((found) => found[1]), ['2', '2', '4', '4', '0']);
  assert.match(plain(text), /^0PUSH 7\[L, L\]1STORE l\[L, L\]2PUSH 8\[L, H\]/);
});

test('what is saved as JSON comes back, and numbers keep all their digits', () => {
  const text = jsonOf({ state, verdict: accepted, audit: { report, sharp }, runs: null, mitigates: null, points: [] });
  const read = JSON.parse(text);
  assert.deepEqual([read.budget, read.audit.sharp.sharp, read.audit.report.distinct, read.runs], [9, '16', 3, null]);
  assert.deepEqual(readFileText('a.json', text), state);
  assert.deepEqual(readFileText('a.mit', 'skip'), { program: 'skip' });
  assert.deepEqual(readFileText('a.TOML', '[[run]]'), { starts: '[[run]]' });
  assert.equal(readFileText('a.json', '{"program": 1}'), null);
  assert.equal(readFileText('a.json', 'x'), null);
  assert.deepEqual(readFileText('a.json', '{"program": "p", "starts": "s", "environment": "other"}'),
    { program: 'p', starts: 's' });
});
