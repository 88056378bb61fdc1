import assert from 'node:assert/strict';
import fs from 'node:fs';
import test from 'node:test';
import { examplesOf } from '../src/examples.js';
import {
  commandAt, faultRange, labelsOf, leftOutLabels, linesInside, stepsByLine, writtenLabels,
} from '../src/decorations.js';
import { readProgram } from '../src/language.js';
import { difference, indentAfter, stepsText } from '../src/editor.js';
import { linkOf, stateOf } from '../src/link.js';
import { modeOf } from '../src/mode.js';
import { readSpace } from '../src/space.js';
import { readStarts } from '../src/starts.js';
import { Stopped, Tool } from '../src/tool.js';

const folder = (path) => new URL(path, import.meta.url);
const files = new Proxy({}, {
  get(_, name) {
    const place = [folder(`../../examples/${name}`), folder(`../src/${name}`)].find((one) => fs.existsSync(one));
    return place && fs.readFileSync(place, 'utf8');
  },
});
test('examples have all their files, and can be read', () => {
  for (const one of examplesOf(files)) {
    assert.ok(one.program && one.starts && one.says, one.name);
    assert.ok(readProgram(one.program), one.name);
    assert.ok(readSpace(one.starts) || readStarts(one.starts).fault === undefined, one.name);
  }
});

const CANONICAL = 'labels L, H;\norder L < H;\nvar l : L;\nvar h : H;\nvar m : H;\nmitigate (64, H) @[L, L] {\n '
  + ' while h > 0 @[L, L] do {\n    h := h - 1 @[H, H]\n  }\n};\nl := 1 @[L, L]\n';
const SOURCE = 'var l : L;\nvar h : H;\nvar m;\nmitigate (64) {\n  while h > 0 do { h := h - 1 }\n};\nl := 1 @[L]';

test('left-out labels come from the completed text, at the ends of their lines', () => {
  const labels = labelsOf(CANONICAL);
  assert.equal(labels.of.get('m'), 'H');
  assert.deepEqual(labels.levels, ['H']);
  const wanted = [[3, [': H']], [4, [', H', '@[L, L]']], [5, ['@[L, L]', '@[H, H]']]];
  assert.deepEqual([...leftOutLabels(SOURCE, labels)], wanted);
  assert.equal(leftOutLabels(`${SOURCE};\nskip`, labels).size, 0, 'labels of an earlier text are not shown');
});

test('the lines inside of a mitigate have the number of its level', () => {
  assert.deepEqual([...linesInside(SOURCE, labelsOf(CANONICAL))], [[5, 1]]);
  const nested = 'var h : H;\nmitigate (1, L) {\n  mitigate (2, H) {\n    h := 1\n  }\n};\nskip';
  assert.deepEqual([...linesInside(nested, writtenLabels(nested))], [[3, 0], [4, 0], [5, 0]]);
});

const marked = (text, fault) => {
  const { from, to } = faultRange(text, fault);
  return text.slice(from, to);
};
const at = (line, column, kind = 'refused') => ({ kind, place: { line, column } });

test('a refusal marks its command to its head, at most to the end of the line; a syntax fault its word', () => {
  assert.equal(marked(SOURCE, at(7, 1)), 'l := 1 @[L]');
  assert.equal(marked(SOURCE, at(5, 3)), 'while h > 0 do');
  assert.equal(marked(SOURCE, at(5, 20)), 'h := h - 1');
  assert.equal(marked('if 1 then { skip }', at(1, 1)), 'if 1 then', 'an if without else');
  assert.equal(marked('while\n1 do { skip }', at(1, 1)), 'while', 'a head of two lines');
  assert.equal(marked('var x : L;\nx = 1', at(2, 3, 'syntax')), '=');
  assert.equal(marked('var x : L;\nxyz = 1', at(2, 1, 'syntax')), 'xyz');
  assert.deepEqual(faultRange('x :=', at(1, 5, 'syntax')), { from: 4, to: 4 });
  assert.equal(commandAt('if 1 then { skip }', 0).form, 'if');
});

test('steps have their numbers, by line', () => {
  const steps = [at(2, 5), at(7, 1), at(2, 9)];
  assert.deepEqual([...stepsByLine(steps)], [
    [2, [{ number: 1, isLast: false }, { number: 3, isLast: true }]], [7, [{ number: 2, isLast: false }]],
  ]);
});

// The words of a text as the mode colours them, line by line: 'word style'.
function coloured(text, labels) {
  const mode = modeOf(() => labels), state = mode.startState();
  return text.split('\n').map((string) => {
    const stream = { string, pos: 0 }, found = [];
    const own = mode.copyState(state);
    while (stream.pos < string.length) {
      const begin = stream.pos, style = mode.token(stream, own);
      if (style) found.push(`${string.slice(begin, stream.pos)} ${style}`);
    }
    Object.assign(state, own);
    return found;
  });
}

test('words have the colours of their labels, from line to line', () => {
  const found = coloured('labels A,\nB; var x : B; var y : A; // c\nmitigate (1,\nB) @[A] { y := x + 7 }', {
    names: ['A', 'B'], of: new Map([['x', 'B'], ['y', 'A']]),
  });
  assert.deepEqual(found, [
    ['labels k', 'A label l0 u0'],
    ['B label l1 u1', 'var k', 'x label l1 u1', 'B label l1 u1', 'var k', 'y label l0 u0', 'A label l0 u0',
      '// c note'],
    ['mitigate k', '1 figure'],
    ['B label l1 u1', 'A label l0 u0', 'y label l0 u0', 'x label l1 u1', '7 figure'],
  ]);
  assert.deepEqual(coloured('A := $', { names: ['A'], of: new Map() }), [['$ bad']],
    'a variable without a label has no colour');
});

test('the change of a text is the part that differs', () => {
  assert.deepEqual(difference('abcde', 'abXde'), { from: 2, to: 3, put: 'X' });
  assert.deepEqual(difference('aa', 'aaa'), { from: 2, to: 2, put: 'a' });
  assert.deepEqual(difference('aaa', 'aa'), { from: 2, to: 3, put: '' });
  assert.deepEqual(difference('', 'x'), { from: 0, to: 0, put: 'x' });
  assert.deepEqual(difference('same', 'same'), { from: 4, to: 4, put: '' });
  assert.equal(indentAfter('  while 1 do {'), '\n    ');
  assert.equal(indentAfter('\tskip;'), '\n\t');
});

test('the steps of one line stand beside it in few signs', () => {
  assert.deepEqual([[3], [2, 3], [2, 3, 4], [2, 4], [2, 4, 5]].map(stepsText), ['3', '2–3', '2–4', '2,4', '2 …']);
});

test('written labels are found in a text that is no program', () => {
  const found = writtenLabels('labels A, B; order A < B; var x : B; var y; x := ');
  assert.deepEqual([found.names, [...found.of]], [['A', 'B'], [['x', 'B']]]);
});

test('a link brings back what it was made of', async () => {
  const state = { program: files['password.mit'], starts: files['password.toml'], observer: 'L', environment: 'part',
    budget: '1000000' };
  const link = await linkOf(state);
  assert.match(link, /^#z[A-Za-z0-9_-]+$/);
  assert.deepEqual(await stateOf(link), state);
  const text = Buffer.from(JSON.stringify({ p: 'skip', s: '', o: 'L', e: 'flat', b: '1' })).toString('base64url');
  assert.equal((await stateOf(`#j${text}`)).program, 'skip');
  for (const hash of ['', '#', '#z', '#zAAAA', '#jAAAA', '#q1', `#j${Buffer.from('{"p":1}').toString('base64url')}`]) {
    assert.equal(await stateOf(hash), null, hash);
  }
});

test('a link that unpacks to very much is refused', async () => {
  const big = JSON.stringify({ p: 'a'.repeat(64 << 20), s: '', o: 'L', e: 'flat', b: '1' });
  const { deflateRawSync } = await import('node:zlib');
  assert.equal(await stateOf(`#z${deflateRawSync(big).toString('base64url')}`), null);
});

// A worker that answers when it is told to.
function slowWorkers() {
  const made = [];
  return { made, make: () =>
    made[made.push({ asked: [], ended: false, postMessage(data) { this.asked.push(data); },
      terminate() { this.ended = true; } }) - 1] };
}

test('calls are answered by their numbers', async () => {
  const { made, make } = slowWorkers(), tool = new Tool(make, ['mitigate']);
  const first = tool.call('mitigate', ['check'], {}), second = tool.call('mitigate', ['infer'], {});
  const [worker] = made;
  worker.onmessage({ data: { programs: ['mitigate'] } });
  worker.onmessage({ data: { id: worker.asked[1].id, status: 1, text: 'b' } });
  worker.onmessage({ data: { id: worker.asked[0].id, status: 0, text: 'a' } });
  assert.deepEqual([await first, await second], [{ status: 0, text: 'a' }, { status: 1, text: 'b' }]);
  assert.ok(!tool.isBusy && tool.has('mitigate') && !tool.has('lab'));
});

test('a stop ends the worker, and the next call has a new one', async () => {
  const { made, make } = slowWorkers(), tool = new Tool(make, ['mitigate']);
  const one = tool.call('mitigate', ['run'], {});
  tool.stop();
  await assert.rejects(one, Stopped);
  assert.ok(made[0].ended);
  tool.stop();
  const two = tool.call('mitigate', ['check'], {});
  made[1].onmessage({ data: { id: made[1].asked[0].id, fault: 'RuntimeError: unreachable' } });
  await assert.rejects(two, /unreachable/);
});
