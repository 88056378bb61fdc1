// The page's own reading of a run, instruction by instruction: it has the assignments, mitigations and ends that the
// tool tells, of all examples and of random programs, on each shipped machine.

import assert from 'node:assert/strict';
import fs from 'node:fs';
import test from 'node:test';
import { readCode, readTimeline } from '../src/answers.js';
import { hardwareOf } from '../src/caches.js';
import { readProgram } from '../src/language.js';
import { callWithRoom } from '../src/module.js';
import { agrees, readRunBy } from '../src/reading.js';
import { readStarts } from '../src/starts.js';
import { moduleBytes } from './built_module.js';
import { randomProgram } from './random_programs.js';

const EXAMPLES = new URL('../../examples/', import.meta.url);
const read = (name) => fs.readFileSync(new URL(name, EXAMPLES), 'utf8');
const bytes = moduleBytes(), skip = bytes ? false : 'there is no page/index.html yet';
const module = bytes && new WebAssembly.Module(bytes);
const MACHINES = ['part', 'part2', 'shared', 'shared2', 'larger', 'pldi2012', 'fifo', 'real']
  .map((name) => `${name}.toml`);
const RANDOM = 100, ROOM = 1 << 23;

function call(program, words, files) {
  const { status, bytes: told } = callWithRoom(module, program, words, files, ROOM);
  return { status, text: new TextDecoder().decode(told) };
}

// All runs of a program on a machine, as the tool tells them and as the page reads them: how many, or null where the
// tool refuses the program.
function compared(what, program, starts, { env = null, machine = null, budget = 1000000 }) {
  const files = { p: program, s: starts, m: machine ?? '' };
  const compiled = call('mitigate', ['compile', 'p'], files);
  if (compiled.status !== 0) return null;
  const words = ['timeline', 'p', 's', ...(env ? ['--env', env] : ['--machine', 'm']), '--budget', String(budget)];
  const told = readTimeline(call('lab', words, files).text), text = env === 'flat' ? null : machine;
  if (!told) return null;
  const code = readCode(compiled.text), rows = readStarts(starts).runs;
  told.runs.forEach((run, k) => {
    const about = { code, program: readProgram(program), hardware: hardwareOf(text), start: rows[k], budget };
    const reading = readRunBy(about);
    assert.ok(reading && agrees(reading, run), `${what}, run ${k + 1}: ends at ${
      reading?.machine.ending.end}, and the tool tells ${run.end}`);
    const { costs, ends } = reading, sum = costs.reduce((all, { cycles, waited }) => all + cycles + waited, 0);
    assert.equal(sum, ends.at(-1) ?? 0, `${what}: the cycles of all instructions are those of the run`);
  });
  return told.runs.length;
}

test('all examples, on each machine', { skip }, () => {
  let count = 0;
  const names = fs.readdirSync(EXAMPLES).filter((name) => name.endsWith('.mit'));
  for (const name of names) {
    const program = read(name), file = name.replace(/\.mit$/, '.toml');
    const starts = fs.existsSync(new URL(file, EXAMPLES)) ? read(file) : '[[run]]\n';
    count += compared(name, program, starts, { env: 'flat' }) ?? 0;
    for (const env of ['part', 'part2']) {
      count += compared(`${name} ${env}`, program, starts, { env, machine: read(`machines/${env}.toml`) }) ?? 0;
    }
    for (const machine of MACHINES) {
      count += compared(`${name} ${machine}`, program, starts, { machine: read(`machines/${machine}`) }) ?? 0;
    }
  }
  assert.ok(count > 100, `${count} runs`);
});

test('random programs, whole and cut', { skip }, () => {
  let count = 0;
  for (let seed = 1; seed <= RANDOM; seed++) {
    const { program, starts } = randomProgram(seed), machine = read(`machines/${MACHINES[seed % MACHINES.length]}`);
    for (const budget of [1000000, 50 + seed]) {
      count += compared(`random ${seed} flat`, program, starts, { env: 'flat', budget }) ?? 0;
      count += compared(`random ${seed}`, program, starts, { machine, budget }) ?? 0;
    }
  }
  assert.ok(count > 150, `${count} runs`);
});

test('the misses that the lesson of the caches speaks of', { skip }, () => {
  const program = read('sbox/seen.mit'), starts = read('sbox/starts.toml');
  const { text } = call('mitigate', ['compile', 'p'], { p: program });
  const readings = readStarts(starts).runs.map((start) => readRunBy({
    code: readCode(text), program: readProgram(program), hardware: hardwareOf(read('machines/part.toml')), start,
    budget: 1000000,
  }));
  const missed = (place) =>
    readings.map(({ costs }) => costs.reduce((all, cost) => all + (cost.missed[place] ?? 0), 0));
  const [data, page] = [missed('data'), missed('page')];
  assert.deepEqual(data.map((count) => count - data[0]), [0, 0, 1, 1]);
  assert.deepEqual(page.map((count) => count - page[0]), [0, 0, 0, 1]);
});
