// Words beside what is shown: terms with their links, how far a long run is, the cycles beside the lines, and answers
// that are made once.

import assert from 'node:assert/strict';
import fs from 'node:fs';
import test from 'node:test';
import { lineCosts } from '../src/line_costs.js';
import { call } from '../src/module.js';
import { followRuns, progressText } from '../src/progress.js';
import { term, TERMS, termText } from '../src/terms.js';
import { auditBoxes } from '../src/audit_text.js';
import { verdictText } from '../src/verdict_text.js';
import { moduleBytes } from './built_module.js';

const plain = (text) => text.replaceAll('\u202f', ' ');
const here = (path) => new URL(path, import.meta.url);
const anchorOf = (heading) => heading.toLowerCase().replace(/[^\p{L}\p{N} _-]/gu, '').replaceAll(' ', '-');

test('each link of a term leads to a place that is there', () => {
  for (const [name, { links }] of Object.entries(TERMS)) {
    assert.ok(links.length >= 2, name);
    for (const { address } of links) {
      const [path, place] = address.split('#'), [anchor, words] = place.split(':~:text=');
      const text = fs.readFileSync(here(`../${path}`), 'utf8');
      const headings = [...text.matchAll(/^#+ (.*)$/gm)].map((match) => match[1]);
      if (anchor) assert.ok(headings.map(anchorOf).includes(anchor), `${name}: ${address}`);
      const wanted = decodeURIComponent(words);
      if (anchor) assert.ok(headings.includes(wanted), `${name}: the heading ${wanted}`);
      else assert.ok(text.includes(`**${wanted}**`), `${name}: the entry ${wanted}`);
    }
  }
});

test('terms stand where they are spoken of', () => {
  assert.match(term('bound', 'the <bound>'), /data-term="bound".*>the &lt;bound&gt;</);
  assert.match(termText('sharp count'), /missed predictions stay doubled.*THEOREM\.md#the-sharp-count/);
  assert.match(termText('bound'), /\(K\+1\)/);
  const report = { runs: 2, distinct: 2, base: 2, exponent: 3 }, sharp = { sharp: 4n, bits: 2 };
  const boxes = auditBoxes({ report, sharp });
  for (const name of ['timed sequence', 'sharp count', 'bound']) assert.ok(boxes.includes(`data-term="${name}"`), name);
  const refusal = (line) => ({ kind: 'refused', rule: 'T-ASGN', place: { line, column: 1 }, from: 'H', to: 'L' });
  const labels = { names: ['L', 'H'], of: new Map() };
  const verdict = verdictText({ ...refusal(3), refusals: [refusal(3), refusal(4)] }, labels);
  assert.equal(verdict.split('data-term="T-ASGN"').length, 2, 'no two buttons have one name');
  assert.equal(verdict.split('T-ASGN at ').length + verdict.split('T-ASGN</button> at ').length, 4,
    'both name their rule');
});

test('the version of the tool is on the page, and a sign beside what a term stands for', () => {
  const page = fs.readFileSync(here('../index.html'), 'utf8'),
    version = fs.readFileSync(here('../../VERSION'), 'utf8').trim();
  assert.ok(page.includes(`mitigate ${version}`));
  const names = [...page.matchAll(/class="term about" data-term="([^"]*)"/g)].map((match) => match[1]);
  assert.ok(names.length >= 7, `${names}`);
  for (const name of names) assert.ok(TERMS[name], name);
});

test('how far a long run is', () => {
  const step = { says: 'the count', number: 2, of: 4 };
  const text = (told) => plain(progressText(3.25, step, told));
  assert.equal(text(null), 'the count (step 2 of 4), 3.3 s');
  assert.equal(text({ run: 2, runs: 9, cycle: 0, budget: 1e6 }), 'the count (step 2 of 4), 3.3 s: run 2 of 9');
  assert.equal(
    text({ run: 2, runs: 9, cycle: 65536, budget: 1e6 }),
    'the count (step 2 of 4), 3.3 s: run 2 of 9 is past 65 536 cycles of 1 000 000, 6 %',
  );
  assert.match(text({ run: 1, runs: 1, cycle: 65536, budget: 2 ** 40 }),
    /65 536 cycles of 1 099 511 627 776, less than 0\.01 %$/);
  assert.match(text({ run: 1, runs: 1, cycle: 5555, budget: 1e6 }), /, 0\.55 %$/);
  assert.match(text({ runs: 9, isEnded: true }), /: all 9 runs have been followed$/);
  assert.match(text({ runs: 1, isEnded: true }), /: the run has been followed$/);
});

test('runs are followed one after the other, each to twice as many cycles, until it ends or the last cycle comes',
  async () => {
  const asked = { program: 'p', starts: '[[run]]\nmemory = { h = 0 }\n\n[[run]]\nmemory = { h = 1 }\n', observer: 'L',
    environment: 'part' };
  const calls = [], told = [];
  const tool = {
    async call(_, words, files) {
      const budget = Number(words.at(-1)), h = /h = (\d)/.exec(files['starts.toml'])[1];
      calls.push(`${h} ${budget}`);
      return { status: h === '0' && budget > 65536 ? 0 : 10, text: '' };
    },
  };
  await followRuns(tool, { ...asked, budget: '300000' }, (next) => told.push(next));
  assert.deepEqual(calls, ['0 65536', '0 131072', '1 65536', '1 131072', '1 262144']);
  assert.deepEqual(told.map(({ run, cycle, isEnded }) => (isEnded ? 'end' : `${run} ${cycle}`)), [
    '1 0', '1 65536', '2 0', '2 65536', '2 131072', '2 262144', 'end',
  ]);
  const other = { call: async () => ({ status: 9, text: '' }) }, seen = [];
  await followRuns(other, { ...asked, budget: '300000' }, (next) => seen.push(next));
  assert.deepEqual(seen.map(({ run }) => run), [1], 'starts that do not agree are not followed');
});

test('the cycles of a run stand beside lines that the timeline tells of', () => {
  const text = 'var h : H;\nvar l : L;\nmitigate (8, H) {\n  while h > 0 do { h := h - 1 }\n};\nl := 1;\nl := 2;\nh'
    + ' := 5\n';
  const assigned = (variable, cycle) => ({ variable, value: '0', cycle });
  const mitigation = { place: '3:1', begin: 10, worked: 25, end: 42, misses: 0, missesAfter: 2 };
  const run = { events: [assigned('l', 50), assigned('l', 60), assigned('h', 70)], mitigations: [mitigation] };
  const told = lineCosts(text, run);
  assert.deepEqual([...told.keys()], [3], 'what is assigned on two lines has no place');
  assert.deepEqual(told.get(3),
    { short: '25+7', long: '1 mitigation: worked 25 cycles, waited 7, 2 predictions missed' });
  const single = lineCosts('var a[2] : L;\na[0] := 1', { events: [assigned('a[0]', 7)], mitigations: null });
  assert.deepEqual([...single], [[2, { short: '@7', long: 'assigned at cycle 7' }]]);
  const loop = lineCosts('var l : L;\nwhile l do {\n  l := l - 1\n}',
    { events: [1, 2, 3, 4, 1005].map((cycle) => assigned('l', cycle)) });
  assert.equal(plain(loop.get(3).short), '5× @1 … @1 005');
  const open = lineCosts(text, { events: [], mitigations: [{ ...mitigation, end: null }] });
  assert.equal(open.get(3).short, 'not ended');
});

const bytes = moduleBytes(), skip = bytes ? false : 'there is no page/index.html yet';

test('an answer of more than a megabyte is made once on the module', { skip }, () => {
  const module = new WebAssembly.Module(bytes), Made = WebAssembly.Instance;
  let made = 0;
  WebAssembly.Instance = function instance(...given) {
    made++;
    return new Made(...given);
  };
  try {
    const program = 'var l : L;\nl := 60000;\nwhile l > 0 do { l := l - 1 }\n';
    const { status, text } = call(module, 'mitigate', ['run', 'program.mit'], { 'program.mit': program });
    assert.ok(status === 0 && text.length > 2 ** 20 && /^end @\d+\n$/m.test(text.slice(-20)),
      `${status} ${text.length}`);
    assert.equal(made, 1);
  } finally {
    WebAssembly.Instance = Made;
  }
});
