// The page's own code of a program: the tool's, of all that the tool compiles; and of what it refuses, the runs by it
// are those that the tool tells, by labels that the tool tells.

import assert from 'node:assert/strict';
import fs from 'node:fs';
import test from 'node:test';
import { readCode, readTimeline } from '../src/answers.js';
import { hardwareOf } from '../src/caches.js';
import { readProgram } from '../src/language.js';
import { callWithRoom } from '../src/module.js';
import { joiner, ownCode } from '../src/own_code.js';
import { agrees, readRunBy } from '../src/reading.js';
import { readStarts } from '../src/starts.js';
import { leastLabelsOf } from '../src/study.js';
import { moduleBytes } from './built_module.js';
import { randomProgram } from './random_programs.js';

const EXAMPLES = new URL('../../examples/', import.meta.url);
const read = (name) => fs.readFileSync(new URL(name, EXAMPLES), 'utf8');
const bytes = moduleBytes(), skip = bytes ? false : 'there is no page/index.html yet';
const module = bytes && new WebAssembly.Module(bytes);
const MACHINES = ['part.toml', 'part2.toml', 'shared2.toml', 'pldi2012.toml'], RANDOM = 100, ROOM = 1 << 23;

function call(program, words, files) {
  const { status, bytes: told } = callWithRoom(module, program, words, files, ROOM);
  return { status, text: new TextDecoder().decode(told) };
}
const tool = { has: () => true, call: async (...asked) => call(...asked) };

const filesIn = (folder) => fs.readdirSync(new URL(folder, EXAMPLES)).filter((name) => name.endsWith('.mit'))
  .map((name) => `${folder}${name}`);
const inExamples = () => fs.readdirSync(EXAMPLES, { withFileTypes: true })
  .flatMap((entry) => (entry.isDirectory() ? filesIn(`${entry.name}/`) : [])).concat(filesIn(''));

test('a join is the least label above both', () => {
  const join = joiner({ labels: ['low', 'ann', 'bob', 'host'],
    pairs: [['low', 'ann'], ['low', 'bob'], ['ann', 'host'], ['bob', 'host']] });
  assert.deepEqual([join(), join('ann'), join('ann', 'bob'), join('low', 'bob'), join('bob', 'bob')],
    ['low', 'ann', 'host', 'bob', 'bob']);
});

test('code by hand', () => {
  const text = 'var h : H;\nvar a[3] : H;\nvar l : L;\nif h > 1 then { a[h + l * 2] := 007 };\n'
    + 'while a[l] do { skip };\na[h] := l;\nl := a[h]\n';
  const told = ownCode(readProgram(text), text, { of: new Map([['h', 'H'], ['a', 'H'], ['l', 'L']]), levels: [] })
    .map(({ name, operand, labels }) => `${`${name} ${operand}`.trim()} ${labels.join('')}`);
  assert.deepEqual(told, [
    'LOAD h LL', 'PUSH 1 LL', 'OP > LL', 'BRZ 12 LL',
    'LOAD h HH', 'LOAD l HH', 'PUSH 2 HH', 'OP * HH', 'OP + HH', 'PUSH 7 HH', 'STOREX a HH',
    'JMP 13 HH', 'NOP HH',
    'LOAD l LL', 'LOADX a LL', 'BRZ 20 LL', 'NOP HH', 'LOAD l HH', 'LOADX a HH', 'BRNZ 16 HH',
    'LOAD h HH', 'LOAD l HH', 'STOREX a HH', 'LOAD h HH', 'LOADX a HH', 'STORE l HH', 'HALT LL',
  ]);
});

// Whether the tool compiles a program, and then that the page's code is that.
function comparedCode(what, text) {
  const compiled = call('mitigate', ['compile', 'p'], { p: text });
  if (compiled.status !== 0) return false;
  const completed = call('mitigate', ['infer', 'p'], { p: text }).text, program = readProgram(completed);
  const of = new Map(program.variables.map(({ name, label }) => [name, label]));
  assert.deepEqual(ownCode(program, completed, { of, levels: [] }), readCode(compiled.text), what);
  return true;
}

test('of what is accepted it is the tool’s code on the module', { skip }, () => {
  let count = 0;
  for (const name of inExamples()) count += comparedCode(name, read(name));
  for (let seed = 1; seed <= RANDOM; seed++) count += comparedCode(`random ${seed}`, randomProgram(seed).program);
  assert.ok(count > 60, `${count} programs`);
});

// How many runs of a refused program were compared; 0 of one that is accepted, or none.
async function comparedRuns(what, text, starts, machine, budget) {
  const files = { p: text, s: starts, m: machine };
  const refused = call('mitigate', ['check', 'p'], files);
  if (!refused.text.startsWith('refused ')) return 0;
  const words = ['timeline', 'p', 's', '--machine', 'm', '--budget', String(budget), '--refused'];
  const told = readTimeline(call('lab', words, files).text);
  if (!told) return 0;
  const program = readProgram(text), code = ownCode(program, text, await leastLabelsOf(tool, { program: text }));
  const rows = readStarts(starts).runs;
  told.runs.forEach((run, k) => {
    const reading = readRunBy({ code, program, hardware: hardwareOf(machine), start: rows[k], budget });
    assert.ok(reading && agrees(reading, run), `${what}, run ${k + 1}`);
  });
  return told.runs.length;
}

// A random program without some of the labels that it writes.
const withoutLabels = (text, seed) =>
  text.replace(/^(var (\w+)(?:\[\d+\])?) : \w+;$/gm,
    (line, head, name) => ((seed + name.charCodeAt(0)) % 3 ? line : `${head};`))
    .replace(/(mitigate \(\w+), \w+\)/g, (whole, head) => (seed % 2 ? whole : `${head})`));

test('of what is refused the runs are those that the tool tells on the module', { skip }, async () => {
  let count = 0;
  for (const name of inExamples()) {
    const file = name.replace(/\.mit$/, '.toml'), folder = name.replace(/[^/]*$/, 'starts.toml');
    const starts = [file, folder].find((other) => fs.existsSync(new URL(other, EXAMPLES)));
    const machine = read(`machines/${MACHINES[count % MACHINES.length]}`);
    count += await comparedRuns(name, read(name), starts ? read(starts) : '[[run]]\n', machine, 1000000);
  }
  const ofExamples = count;
  for (let seed = 1; seed <= RANDOM; seed++) {
    const { program, starts } = randomProgram(seed), machine = read(`machines/${MACHINES[seed % MACHINES.length]}`);
    for (const budget of [1000000, 50 + seed]) {
      count += await comparedRuns(`random ${seed}`, withoutLabels(program, seed), starts, machine, budget);
    }
  }
  assert.ok(ofExamples > 10 && count - ofExamples > 60, `${ofExamples} and ${count - ofExamples} runs`);
});
