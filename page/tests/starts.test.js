import assert from 'node:assert/strict';
import fs from 'node:fs';
import test from 'node:test';
import { cellText, cellValue, columnsOf, oneStart, readStarts, writeStarts } from '../src/starts.js';
import {
  withCell, withColumnNamed, withCopy, withoutColumn, withoutRun, withRange,
} from '../src/starts_edit.js';
import { readToml } from '../src/toml.js';

const EXAMPLES = new URL('../../examples/', import.meta.url);

test('every start file of the examples goes to the table and back', () => {
  for (const name of fs.readdirSync(EXAMPLES).filter((one) => one.endsWith('.toml'))) {
    const text = fs.readFileSync(new URL(name, EXAMPLES), 'utf8'), read = readStarts(text);
    assert.equal(read.fault, undefined, name);
    assert.deepEqual(readStarts(writeStarts(read)), read, name);
  }
});

test('forms of TOML', () => {
  const text = '# a\nversion = 2\n[[run]]\nmemory.h = 0x1F # c\nmemory."a b" = [ 1,\n # in between\n -2,'
    + ' ]\n[[run]]\n[run.memory]\nh = 1_000\n[[run.touch]]\nplace = \'data\'\nlabel = "H\\u0041"\naddress = 0b11\n';
  const read = readStarts(text);
  assert.equal(read.runs[0].memory.get('h'), 31n);
  assert.deepEqual(read.runs[0].memory.get('a b'), [1n, -2n]);
  assert.equal(read.runs[1].memory.get('h'), 1000n);
  assert.deepEqual([...read.runs[1].touch[0]], [['place', 'data'], ['label', 'HA'], ['address', 3n]]);
  assert.deepEqual(readStarts(writeStarts(read)), read);
});

test('what is not read has a fault with its line', () => {
  const faults = { 'a = 1\n': /\[\[run\]\]/, '[[run]]\nmemory = { h = 1.5 }\n': /line 2/,
    '[[run]]\nmemory = { h = "x" }\n': /run 1: h is no number/, '[[run]]\nmemory = { h = 1 } x\n': /line 2/,
      '[[run]\n': /line 1/, '[[run]]\nmemory = { h = 1, h = 2 }\n': /twice/, 'run = 1': /\[\[run\]\]/,
        '[[run]]\nmemory = {': /line 2/, '[[run]]\nmemory = { h = 01 }': /line 2/ };
  for (const [text, wanted] of Object.entries(faults)) assert.match(readStarts(text).fault, wanted, text);
});

test('numbers keep 64 bits', () => {
  const text = '[[run]]\nmemory = { h = -9223372036854775808 }\n';
  assert.equal(writeStarts(readStarts(text)), text);
});

test('comments at the head stay', () => {
  const text = '# one\n# two\n\n[[run]]\nmemory = { h = 1 }\n';
  assert.equal(writeStarts(readStarts(text)), text);
});

test('cells', () => {
  assert.equal(cellText([112n, 97n]), '"pa"');
  assert.equal(cellText([1n, 2n]), '1 2');
  assert.equal(cellText([65n]), '65');
  assert.equal(cellText(undefined), '');
  assert.deepEqual(cellValue('"pa"', true), [112n, 97n]);
  assert.deepEqual(cellValue('1, 2  -3', true), [1n, 2n, -3n]);
  assert.equal(cellValue(' -12 ', false), -12n);
  assert.equal(cellValue('', false), undefined);
  for (const text of ['x', '1 2', '1.5', '9223372036854775808']) assert.equal(cellValue(text, false), null, text);
});

test('a long list does not take the stack', () => {
  assert.equal(readToml(`a = [${'1,'.repeat(100000)}]`).get('a').length, 100000);
});

test('edits of the table', () => {
  const text = '[[run]]\nmemory = { h = 1 }\n\n[[run]]\n';
  const edited = withCell(text, 1, 'h', 7n);
  assert.equal(edited, '[[run]]\nmemory = { h = 1 }\n\n[[run]]\nmemory = { h = 7 }\n');
  assert.equal(withCell(edited, 0, 'h', undefined), '[[run]]\nmemory = {}\n\n[[run]]\nmemory = { h = 7 }\n');
  assert.equal(withCopy(edited, 1), `${edited}\n[[run]]\nmemory = { h = 7 }\n`);
  assert.equal(withCopy(edited, 0), `[[run]]\nmemory = { h = 1 }\n\n${edited}`);
  assert.equal(withoutRun(edited, 0), '[[run]]\nmemory = { h = 7 }\n');
  assert.equal(withoutRun(edited, 1), '[[run]]\nmemory = { h = 1 }\n');
  assert.equal(oneStart(readStarts(edited), 1), '[[run]]\nmemory = { h = 7 }\n');
  assert.deepEqual(readStarts(withRange(edited, 'h', 3n, 5n)).runs.map((run) => run.memory.get('h')), [3n, 4n, 5n]);
  assert.deepEqual(columnsOf(readStarts(withCell(edited, 1, 'g', [1n]))), ['h', 'g']);
});

test('an array makes a text one of version 2, and no edit takes the version away', () => {
  assert.equal(withCell('# mine\n\n[[run]]\n', 0, 'a', [1n]), '# mine\nversion = 2\n\n[[run]]\nmemory = { a = [1] }\n');
  assert.equal(withCell('version = 1\n[[run]]\n', 0, 'a', [1n]), 'version = 2\n[[run]]\nmemory = { a = [1] }\n');
  const wide = '# mine\nversion = 2 # as arrays need\n\n[[run]]\nmemory = { a = [1, 2], h = 3 }\n';
  assert.equal(withCell(wide, 0, 'h', 4n), wide.replace('3', '4'));
  assert.equal(withCell(wide, 0, 'a', [5n]), wide.replace('[1, 2]', '[5]'));
  assert.equal(withoutColumn(wide, 'a'), wide.replace('a = [1, 2], ', ''));
  assert.match(withCopy(wide, 0), /^# mine\nversion = 2 # as arrays need\n/);
});

const COMMENTED = `# head
version = 2

# first
[[run]] # a
memory = { h = 1, a = [1, 2] } # b

# second
[[run]]

[[run]]
memory.h = 3 # c
[[run]]
[run.memory]
h = 0x1F # d
[[run.touch]]
place = "data"
label = "H"
address = 3
`;

test('an edit leaves the rest of the text as it was, comments included', () => {
  const change = (edited, from, to) => assert.equal(edited, COMMENTED.replace(from, to));
  change(withCell(COMMENTED, 0, 'h', 7n), 'h = 1', 'h = 7');
  change(withCell(COMMENTED, 0, 'k', 7n), 'a = [1, 2] }', 'a = [1, 2], k = 7 }');
  change(withCell(COMMENTED, 0, 'a', undefined), ', a = [1, 2]', '');
  change(withCell(COMMENTED, 1, 'h', 7n), '# second\n[[run]]\n', '# second\n[[run]]\nmemory = { h = 7 }\n');
  change(withCell(COMMENTED, 2, 'h', 7n), 'memory.h = 3', 'memory.h = 7');
  change(withCell(COMMENTED, 2, 'k', 7n), 'memory.h = 3 # c\n', 'memory.h = 3 # c\nmemory.k = 7\n');
  change(withCell(COMMENTED, 3, 'h', 7n), '0x1F', '7');
  change(withCell(COMMENTED, 3, 'k', 7n), 'h = 0x1F # d\n', 'h = 0x1F # d\nk = 7\n');
  change(withoutRun(COMMENTED, 1), '# second\n[[run]]\n\n', '');
  change(withoutRun(COMMENTED, 0), '[[run]] # a\nmemory = { h = 1, a = [1, 2] } # b\n\n', '');
  change(withCopy(COMMENTED, 2), 'memory.h = 3 # c\n', 'memory.h = 3 # c\n\n[[run]]\nmemory.h = 3 # c\n\n');
  assert.equal(withColumnNamed(COMMENTED, 'h', 'k'),
    COMMENTED.replace('h = 1', 'k = 1').replace('memory.h', 'memory.k').replace('h = 0x1F', 'k = 0x1F'));
  assert.deepEqual(columnsOf(readStarts(withoutColumn(COMMENTED, 'h'))), ['a']);
});

test('an edit of runs that stand in a list of one line writes the text anew', () => {
  const text = 'run = [{ memory = { h = 1 } }, { memory = { h = 2 } }]\n';
  assert.equal(withCell(text, 1, 'h', 3n), '[[run]]\nmemory = { h = 1 }\n\n[[run]]\nmemory = { h = 3 }\n');
  assert.equal(withoutRun(text, 0), '[[run]]\nmemory = { h = 2 }\n');
  assert.equal(readStarts(withCopy(text, 0)).runs.length, 3);
});
