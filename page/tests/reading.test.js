// The page's own reading of a run, instruction by instruction, worked out by hand; tests/reading_tool.test.js sets it
// beside the tool.

import assert from 'node:assert/strict';
import fs from 'node:fs';
import test from 'node:test';
import { readTimeline } from '../src/answers.js';
import { Caches, hardwareOf, PLACES } from '../src/caches.js';
import { readProgram } from '../src/language.js';
import { agrees, machineAfter, readRunBy } from '../src/reading.js';
import {
  costsByLine, heldTable, instructionText, linesOfCode, longCost, paidText, shortCost, tagText, withReading,
} from '../src/reading_text.js';

const EXAMPLES = new URL('../../examples/', import.meta.url);
const read = (name) => fs.readFileSync(new URL(name, EXAMPLES), 'utf8');

test('what partitions hold, and what an instruction cost', () => {
  const program = 'var l : L;\nvar h : H;\nl := h\n', labels = ['L', 'L'];
  const code = [['LOAD', 'h'], ['STORE', 'l'], ['HALT', '']]
    .map(([name, operand], number) => ({ number, name, operand, labels: number === 0 ? ['H', 'H'] : labels }));
  const about = {
    code, program: readProgram(program), hardware: hardwareOf(read('machines/part.toml')),
    start: { memory: new Map([['h', 7n]]), touch: [] }, budget: 1000000,
  };
  const machine = machineAfter(about, 1);
  // 1, and 20 + 8 for the page and the line of the code, and 20 + 12 for those of h
  assert.deepEqual([machine.clock, machine.last.to, machine.stack], [61, 61, [7n]]);
  assert.deepEqual(machine.caches.rowOf('page', 'H', 0), [1024, 0]);
  assert.deepEqual(machine.caches.rowOf('page', 'L', 0), []);
  // what H holds serves no access of L
  assert.equal(machineAfter(about, 2).clock, 122);
  const { costs } = readRunBy(about);
  assert.deepEqual(costs.map(({ times, cycles }) => [times, cycles]), [[1, 61], [1, 61], [1, 1]]);
  assert.deepEqual(costs[0].missed, { page: 2, code: 1, data: 1 });
  assert.equal(readRunBy(about, 2), null);
  assert.deepEqual(Object.keys(hardwareOf(null).banks), []);
  assert.ok(PLACES.includes('second'));
});

test('of the first that came a touch changes nothing', () => {
  const bank = { sets: 1, ways: 2, bytes: 1, hit: 0, miss: 1 }, order = { names: ['L'], pairs: [] };
  const heldBy = (replace) => {
    const caches = new Caches({ isShared: false, banks: { data: { ...bank, replace } } }, order);
    for (const address of [1, 2, 1, 3]) caches.touch('data', 'L', address);
    return caches.rowOf('data', 'L', 0);
  };
  assert.deepEqual(heldBy('fifo'), [3, 2]);
  assert.deepEqual(heldBy('lru'), [3, 1]);
  assert.equal(hardwareOf(read('machines/fifo.toml')).banks.data.replace, 'fifo');
});

test('a reading that tells another cycle, value or end than the tool is none', () => {
  const program = 'var l : L;\nl := 1\n', code = ['PUSH 1', 'STORE l', 'HALT '].map((text, number) => {
    const [name, operand] = text.split(' ');
    return { number, name, operand, labels: ['L', 'L'] };
  });
  const about = {
    code, program: readProgram(program), hardware: hardwareOf(null), budget: 100,
    start: { memory: new Map(), touch: [] },
  };
  const reading = readRunBy(about), run = (text) => readTimeline(`run 1\n${text}`).runs[0];
  assert.equal(agrees(reading, run('l = 1 @2\nend @3\n')), true);
  const others = ['l = 1 @3\nend @3\n', 'l = 2 @2\nend @3\n', 'end @3\n', 'l = 1 @2\nend @4\n', 'l = 1 @2\nlimit @3\n'];
  for (const other of others) {
    assert.equal(agrees(reading, run(other)), false, other);
  }
});

const plain = (text) => text.replaceAll('\u202f', ' ').replace(/<[^>]+>/g, '|').replace(/\|+/g, '|');

test('costs by line and in words', () => {
  const text = 'var h : H;\nwhile h do {\n  h := h - 1\n};\nsleep 9\n', program = readProgram(text);
  const names = [['LOAD', 'h'], ['BRZ', '8'], ['LOAD', 'h'], ['PUSH', '1'], ['OP', '-'], ['STORE', 'h'], ['LOAD', 'h'],
    ['BRNZ', '2'], ['PUSH', '9'], ['SLEEP', ''], ['HALT', '']];
  const code = names.map(([name, operand], number) => ({ number, name, operand, labels: ['L', 'L'] }));
  const start = { memory: new Map([['h', 2n]]), touch: [] };
  const about = { code, program, hardware: hardwareOf(read('machines/part.toml')), start, budget: 1000 };
  const { costs, ends } = readRunBy(about), lines = linesOfCode(program, text);
  assert.deepEqual(lines, [2, 2, 3, 3, 3, 3, 2, 2, 5, 5, null]);
  const byLine = costsByLine(lines, costs), line = (number) => byLine.get(number);
  // two at first and two each time, 20 + 8 and 20 + 12 for what is looked up first
  assert.deepEqual(['2', '3', '5'].map((number) => shortCost(line(Number(number)))), ['66 (4)', '8', '10 (1) +9']);
  assert.equal(ends.at(-1), 66 + 8 + 10 + 9 + 1);
  assert.equal(longCost(line(2)),
    'its code: 6 instructions, 66 cycles, 14 look-ups hit, missed: 2 page, 1 code line, 1 data line');
  assert.equal(longCost(line(5)),
    'its code: 2 instructions, 10 cycles and 9 waited, 3 look-ups hit, missed: 1 code line');
  assert.deepEqual([paidText(costs[2]), paidText(costs[1]), paidText({ times: 0 })], ['2× 2', '1', 'not run']);
  const told = new Map([[3, { short: '@1', long: 'assigned' }], [9, { short: '@2', long: 'other' }]]);
  const both = withReading(told, byLine);
  assert.match(both.get(3).long, /^assigned; its code: 8 instructions, 8 cycles, /);
  assert.deepEqual(both.get(9), { short: '@2', long: 'other' });
});

test('an instruction and what is held, in words', () => {
  const program = readProgram('var a[6] : L;\nvar h : H;\na[1] := h\n');
  const start = { memory: new Map([['h', 3n]]), touch: [] };
  const names = [['PUSH', '1'], ['LOAD', 'h'], ['STOREX', 'a'], ['HALT', '']];
  const code = names.map(([name, operand], number) =>
    ({ number, name, operand, labels: number === 1 ? ['H', 'H'] : ['L', 'L'] }));
  const about = { code, program, start, hardware: hardwareOf(read('machines/part.toml')), budget: 1000 };
  const machine = machineAfter(about, 2), labels = { names: program.labels };
  assert.equal(plain(instructionText(machine, about, 1, 4, 1)),
    'Run 1, instruction 2 of 4, cycle 62: 1 LOAD h [H, H] cost 33 cycles: 1; page hit, code line hit; h: page miss 20,'
    + ' data line miss 12. Stack: 1 3.');
  assert.equal(plain(heldTable(machine, about, labels)),
    '|What is held|L|H|Translation buffer: pages|code 0–3|a[0] … h ·'
    + ' code 0–3|Code cache: lines|0| code 0–3|0| code 0–3|Data cache: lines|nothing|1| a[4] … h|');
  assert.match(instructionText(machineAfter(about, 3), about, 2, 4, 1),
    /: 2 STOREX a .*; a\[1\]: .* Values: a\[1\] = 3\.$/);
  const shared = { ...about, hardware: hardwareOf(read('machines/shared.toml')) };
  assert.match(plain(heldTable(machineAfter(shared, 2), shared, labels)), /^\|What is held\|for all labels\|/);
  assert.match(heldTable(machineAfter({ ...about, hardware: hardwareOf(null) }, 1), about, labels), /Without caches/);
  const told = [[0, 6], [9, 2], [2 ** 20, 1]].map(([tag, bytes]) => tagText(tag, { bytes }, 9, ['l']));
  assert.deepEqual(told, ['code 0–1', 'address 18', 'l']);
});
