// What the VS Code extension tells of texts, by the functions of telling.js in the folder that EXTENSION names.

import assert from 'node:assert/strict';
import fs from 'node:fs';
import path from 'node:path';
import test from 'node:test';
import { fileURLToPath, pathToFileURL } from 'node:url';

const HERE = path.dirname(fileURLToPath(import.meta.url)), EXTENSION = process.env.EXTENSION ?? path.join(HERE, '../vscode');
const { openTool, faultsOf, hoverOf, mendFor } = await import(pathToFileURL(path.join(EXTENSION, 'telling.js')));
const tool = openTool();
const example = (name) => fs.readFileSync(path.join(HERE, '../../examples', name), 'utf8');
const part = (text, { from, to }) => text.slice(from, to);
const OPEN = example('password_open.mit'), THROUGH = example('refused/through.mit');

test('an accepted program has no fault', async () => {
  assert.deepEqual(await faultsOf(tool, example('password.mit')), []);
});

test('a refusal stands at its command, with the chain as related places', async () => {
  const [fault, ...more] = await faultsOf(tool, OPEN);
  assert.equal(more.length, 0);
  assert.equal(fault.message, 'refused T-ASGN at 18:1: H does not flow to L');
  assert.equal(fault.rule, 'T-ASGN');
  assert.equal(part(OPEN, fault), 'done := 1');
  const related = fault.related.map((step) => `${part(OPEN, step)}: ${step.message}`);
  assert.deepEqual(related, [
    'right: right is declared H', 'right: this guard reads right', 'while: so how long this while takes is H',
    'done: done, which is L, gets its value after it',
  ]);
});

test('a fault of the text stands at its word, also behind signs of several bytes and with other ends of lines', async () => {
  const texts = {
    'var l : L;\nl = 1\n': ['=', 'syntax: bad byte at 2:3'],
    'var l : L; // é\r\nl = 1\r\n': ['=', 'syntax: bad byte at 2:3'],
    'var l : L;\nl := 1;\n': ['', 'syntax: unexpected at 3:1'],
    '': ['', 'syntax: unexpected at 1:1'],
    'labels A, B;\nskip\n': ['labels A, B;', 'syntax: no bottom below A and B'],
    'var l : int;\nl := 1\n': ['int', 'syntax: unknown name at 1:9'],
  };
  for (const [text, [word, message]] of Object.entries(texts)) {
    const [fault] = await faultsOf(tool, text);
    assert.deepEqual([part(text, fault), fault.message, fault.related], [word, message, []]);
  }
});

test('a name has its label, of a text that is refused too, with the reasons where it is left out', async () => {
  const hover = (text, word, last = false) => hoverOf(tool, text, last ? text.lastIndexOf(word) : text.indexOf(word));
  const second = await hover(THROUGH, 'second', true);
  assert.equal(part(THROUGH, second), 'second');
  assert.deepEqual(second.lines.slice(0, 2), ['second is H', '2:5 h is declared H']);
  assert.deepEqual((await hover(OPEN, 'guess[8]')).lines, ['guess is L']);
  const counter = example('counter.mit');
  assert.match((await tool.call('mitigate', ['infer', 'p'], { p: counter })).text, /^var count : L;$/m);
  assert.deepEqual((await hover(counter, 'count :=')).lines, ['count is L']);
});

test('a command has its two labels, and a mitigate its level', async () => {
  const text = 'var h : H;\nvar l : L;\nl := 1;\nmitigate (8) {\n  while h > 0 do { h := h - 1 }\n}\n';
  const level = await hoverOf(tool, text, text.indexOf('mitigate') + 3);
  assert.equal(level.lines[0], 'level H');
  assert.equal(level.lines.at(-1), 'read label L, write label L');
  assert.deepEqual((await hoverOf(tool, text, text.indexOf('while'))).lines, ['read label L, write label L']);
  for (const word of ['8)', ' (8', '1;']) assert.equal(await hoverOf(tool, text, text.indexOf(word)), null, word);
  assert.equal(await hoverOf(tool, '// count\nvar count;\ncount := 1\n', 3), null);
});

test('the mend makes an accepted program, and changes no more than it must', async () => {
  const mend = await mendFor(tool, OPEN);
  assert.equal(mend.title, 'Put lines 9 to 17 into a mitigate');
  const mended = OPEN.slice(0, mend.from) + mend.text + OPEN.slice(mend.to);
  assert.deepEqual(await faultsOf(tool, mended), []);
  assert.ok(mend.from >= OPEN.indexOf('place := 0') && mend.to <= OPEN.lastIndexOf('done := 1'));
});

test('where no mitigate serves, nothing is offered', async () => {
  for (const text of [example('refused/assign.mit'), example('password.mit'), 'l = 1\n', '']) assert.equal(await mendFor(tool, text), null);
});
