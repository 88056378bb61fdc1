// Spaces of starts: read, numbered as the tool numbers them, written and said.

import assert from 'node:assert/strict';
import fs from 'node:fs';
import test from 'node:test';
import { readLeak } from '../src/answers.js';
import { auditBoxes, auditWords } from '../src/audit_text.js';
import { findingText, isLeaking, refusalText } from '../src/finding.js';
import { factsOf } from '../src/goals.js';
import { histogram } from '../src/histogram.js';
import { leakNumbers, leakSentence } from '../src/leak_text.js';
import { comparedSentence, comparedText } from '../src/machine_text.js';
import { callWithRoom } from '../src/module.js';
import { isSpace, listed, rangesOf, rangeText, readSpace, spaceOfRun, startAt, withValues } from '../src/space.js';
import { readStarts } from '../src/starts.js';
import { moduleBytes } from './built_module.js';

const bytes = moduleBytes(), skip = bytes ? false : 'there is no page/index.html yet';
const EXAMPLE = fs.readFileSync(new URL('../../examples/password/space.toml', import.meta.url), 'utf8');
const variable = (name, length = null) => ({ name, length });

test('a space is read, and nothing else is one', () => {
  const { memory, count } = readSpace(EXAMPLE);
  assert.equal(count, 5408n);
  assert.equal(rangeText(memory.get('secret')), '97..122 97..122 112..119 115 119 111 114 100');
  const others = ['[[run]]\n', 'version = 3\n', 'version = 2\n[space]\n', 'version = 3\n[space\n',
    'version = 3\n[space]\nmemory = { h = "5..4" }\n', 'version = 3\n[space]\nmemory = { h = "x" }\n',
    'version = 3\n[space]\nmemory = { h = " 1" }\n', 'version = 3\n[space]\nmemory = { h = "1,\t2" }\n'];
  for (const other of others) {
    assert.equal(readSpace(other), null, other);
  }
  assert.equal(readSpace('version = 3\n[space]\n').count, 1n);
  const texts = [EXAMPLE, 'version = 3 # c\n', 'version = 2\n', '# version = 3\n'];
  assert.deepEqual(texts.map(isSpace), [true, true, false, false]);
});

test('cells', () => {
  assert.deepEqual(rangesOf('0..15', false), { items: [{ first: 0n, count: 16n }], count: 16n });
  assert.deepEqual(rangesOf(' -3 ', false), { items: [{ first: -3n, count: 1n }], count: 1n });
  assert.equal(rangesOf('7, -2..3,9', false).count, 8n);
  assert.equal(rangeText(rangesOf('7, -2..3,9', false)), '7,-2..3,9');
  assert.equal(rangeText(rangesOf('1, 2..4,7  9', true)), '1 2..4,7 9');
  for (const text of ['', '1..', '..', '4..3', '1 2', '1...2', '1,', '1,,2', '+1']) {
    assert.equal(rangesOf(text, false), null, text);
  }
});

test('edits keep comments, and one run becomes a space', () => {
  const edited = withValues(EXAMPLE, 'secret', rangesOf('1 2..3', true));
  assert.equal(edited, EXAMPLE.replace(/secret = \[.*\] \}/, 'secret = [1, "2..3"] }'));
  assert.equal(withValues('# a\nversion = 3\n\n[space]\n', 'h', rangesOf('0..3', false)),
    '# a\nversion = 3\n\n[space]\nmemory = { h = "0..3" }\n');
  assert.equal(spaceOfRun('[[run]]\nmemory = { g = [1, 2], h = 7 }\n', 'h', rangesOf('0..15', false)),
    'version = 3\n\n[space]\nmemory = { g = [1, 2], h = "0..15" }\n');
  assert.equal(spaceOfRun('[[run]]\n\n[[run]]\n', 'h', rangesOf('0..15', false)), null);
});

test('starts have the numbers that the tool gives them', { skip }, () => {
  const module = new WebAssembly.Module(bytes);
  const program = 'var a[2] : H;\nvar h : H;\nvar l : L;\nmitigate (1, H) {\n  while h + a[0] * 3 + a[1] * 7 > 20 do {'
    + ' h := h - 1 }\n};\nl := 1\n';
  const text = 'version = 3\n\n[space]\nmemory = { h = "0..9", a = ["4, 2..3", "0..3"] }\n', space = readSpace(text);
  const variables = [variable('a', 2), variable('h'), variable('l')];
  const leak = (starts) => {
    const told = callWithRoom(module, 'lab', ['leak', 'p', 's', '--observer', 'L'], { p: program, s: starts }, 1 << 20);
    return readLeak(new TextDecoder().decode(told.bytes));
  };
  const all = leak(text), one = leak(listed(space, variables, Array.from({ length: 120 }, (_, k) => k + 1)));
  assert.equal(all.isSpace, true);
  assert.equal(all.runs, 120);
  assert.ok(all.distinct > 3, `${all.distinct} classes`);
  assert.deepEqual(all.classes, one.classes);
  assert.deepEqual([...startAt(space, variables, 12)], [['a', [4n, 1n]], ['h', 1n]]);
  const firsts = listed(space, variables, all.classes.map(({ first }) => first));
  assert.equal(readStarts(firsts).runs.length, all.distinct);
  assert.equal(leak(firsts).distinct, all.distinct);
});

// Ten starts in classes of six, three and one.
const LEAK = readLeak('starts 10\nobserver L\nbudget 99\ndistinct 3\nleast 1 greatest 6\n'
  + 'min-entropy 1.584962500 to 1.584962501\nshannon 1.295461844 to 1.295461846\n'
  + 'right at first 1 of 10 before, 3 of 10 after\nguesses 11/2 before, 56/20 after\n'
  + 'class 6 first 1\tl=1@12\nclass 3 first 7\tl=1@20\nclass 1 first 10\tl=1@36\n');
const labels = { names: ['L', 'H'], of: new Map() };
const plain = (html) => html.replace(/<[^>]*>/g, '|').replaceAll('\u202f', ' ').replace(/\|+/g, '|');
const accepted = { kind: 'accepted' };

test('what a space tells, in words', () => {
  const found = (leak) => plain(findingText({ verdict: accepted, audit: { space: leak }, labels, observer: 'L' }));
  assert.equal(found(LEAK), 'Of all ten starts of the space an observer at |L| sees three different timings.');
  assert.equal(found({ ...LEAK, distinct: 1 }), 'An observer at |L| cannot tell these ten starts apart.');
  assert.equal(found({ ...LEAK, distinct: 1, runs: 1 }), 'Of one start an observer at |L| sees one timing.');
  assert.deepEqual([isLeaking({ space: LEAK }), isLeaking({ space: { distinct: 1 } })], [true, false]);
  assert.equal(plain(auditBoxes({ space: LEAK })),
    '|3|different |sequences| seen of 10 starts|6|look alike in the largest |class|, and 1 in the smallest|');
  assert.match(plain(auditWords({ space: LEAK }, labels, {})), /of all 10 starts of the space, .* 1\.295461844 to /);
  assert.equal(leakSentence(LEAK),
    'All ten starts of the space show three different things. What start 10 shows, no other one does.');
  assert.match(plain(leakNumbers(LEAK)),
    /\|3\|exactly, by these starts: 2 bits\|Limits of other starts are told of a list/);
  const rows = histogram(LEAK, (number) => `h = ${number - 1}`);
  assert.match(plain(rows), /\|3\|1 start\|h = 9\|/);
  assert.match(rows, /data-first="2" aria-label="Look at the first start of class 2">h = 6</);
});

test('what is refused of a space, in words', () => {
  const words = (text) => plain(refusalText({ kind: 'other', text, isOfSpace: true }, labels, 'L'));
  assert.match(words('disagree: variable g'), /\|g\| has more than one value in the space\.$/);
  assert.equal(words('unfinished: run 12 @99'),
    'No count: start 12 of the space has not halted by the greatest cycle.');
});

test('both machines of a space, and its starts in a task', () => {
  const less = { ...LEAK, distinct: 1, classes: LEAK.classes.slice(0, 1) };
  const both = { partitioned: { leak: less }, shared: { leak: LEAK } };
  assert.match(plain(comparedSentence(both, labels, 'L')), /^\|Of ten starts an observer at /);
  assert.match(plain(comparedText(both)), /\|6 starts, first 1\|/);
  assert.doesNotMatch(plain(comparedText(both)), /at most/);
  const shown = { verdict: accepted, audit: { space: LEAK }, runs: [{ end: 5, halted: true, events: [] }], listed: {},
    isAll: true, labels };
  const facts = factsOf({ state: {}, shown, fresh: () => true, given: { labels: new Map() } });
  assert.deepEqual([facts.sequences, facts.runs, facts.longest, facts.isSameEnd], [3, 10, null, false]);
});
