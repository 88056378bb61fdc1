import assert from 'node:assert/strict';
import test from 'node:test';
import { allCommands, lineFinder, mitigates, offsetOf, owners, pieces, placeOf, readProgram, withEstimate, words,
  wrapped } from '../src/language.js';

const COUNTDOWN = 'var l : L;\nvar h : H;\nmitigate (64, H) {\n  while h > 0 do { h := h - 1 }\n};\nl := 1\n';

test('pieces are the whole text', () => {
  const text = 'var ü := 3 // déjà\n$ x1[2]';
  assert.equal(pieces(text).map((one) => one.text).join(''), text);
  assert.deepEqual(pieces(text).filter((one) => one.kind === 'bad').map((one) => one.text), ['ü', '$']);
});

test('names are labels where labels stand', () => {
  const text = 'labels A, B; order A < B; var x : B; var y[3] : A; mitigate (x, B) @[A, B] { y[x] := x @[B] }';
  const roles = words(text).filter((one) => one.kind === 'name')
    .map((one) => `${one.text}${one.role === 'label' ? '!' : ''}`);
  assert.equal(roles.join(' '), 'A! B! A! B! x B! y A! x B! A! B! y x x B!');
});

test('places count bytes, and offsets come back', () => {
  const text = 'skip; // äö\n  x := 1';
  assert.deepEqual(placeOf(text, text.indexOf('x')), { line: 2, column: 3 });
  assert.deepEqual(placeOf(text, text.indexOf('ö')), { line: 1, column: 12 });
  for (let at = 0; at < text.length; at++) {
    const place = placeOf(text, at);
    assert.equal(offsetOf(text, place.line, place.column), at);
  }
  assert.equal(offsetOf(text, 9, 1), text.length);
});

test('lines of offsets', () => {
  const text = 'a\n\nb\n', lineOf = lineFinder(text);
  for (let at = 0; at <= text.length; at++) assert.equal(lineOf(at), placeOf(text, at).line);
});

test('commands have the numbers of the text, an added skip included', () => {
  const program = readProgram('if 1 then { skip } ; while 0 do { sleep 2 ; x := y[1] }');
  assert.deepEqual(allCommands(program.body).map((one) => `${one.number} ${one.form}`),
    ['0 if', '1 skip', '2 skip', '3 while', '4 sleep', '5 assign']);
});

test('what is no program is not read', () => {
  for (const text of ['', 'var x', 'x := ', 'skip skip', 'if x then skip', 'x := (1', 'x ¬ 1', '('.repeat(100000)]) {
    assert.equal(readProgram(text), null);
  }
});

test('each instruction has its command', () => {
  const program = readProgram(COUNTDOWN);
  const [mitigate, loop, inner, last] = allCommands(program.body);
  const wanted = [mitigate, mitigate, loop, loop, loop, loop, inner, inner, inner, inner, loop, loop, loop, loop,
    mitigate, last, last, null];
  assert.deepEqual(owners(program), wanted);
});

test('an if has a jump of its own, and an element its index', () => {
  const program = readProgram('if a[i + 1] then { b[2] := 3 * 4 } else { skip }');
  assert.equal(owners(program).length, (3 + 1 + 1) + (1 + 3 + 1) + 1 + 1 + 1);
});

test('an estimate is put in place of another one', () => {
  const text = 'mitigate (h + (2 * 3), H) { skip }', program = readProgram(text);
  assert.equal(withEstimate(text, mitigates(program)[0], 8), 'mitigate (8, H) { skip }');
});

test('commands are put into a mitigate', () => {
  const text = '  x := 1;\n  while x do {\n    skip\n  };\n  y := 1', program = readProgram(text);
  const wanted = '  mitigate (8, H) {\n    x := 1;\n    while x do {\n      skip\n    }\n  };\n  y := 1';
  assert.equal(wrapped(text, program.body[0], program.body[1], 8, 'H'), wanted);
});

test('a text is read once, and each text for itself', () => {
  const text = (number) => `var l : L;\nl := ${number}\n`, read = readProgram(text(1));
  assert.equal(readProgram(text(1)), read);
  for (const number of [1, 2, 3, 1, 22]) {
    const { at, end } = readProgram(text(number)).body[0].value;
    assert.equal(text(number).slice(at, end), String(number));
  }
  assert.equal(readProgram('var'), null);
});
