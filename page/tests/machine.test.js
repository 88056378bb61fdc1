// Machine files: which one is chosen, what is refused where, what is asked on a machine, and both kinds side by side.

import assert from 'node:assert/strict';
import fs from 'node:fs';
import test from 'node:test';
import { readAudit, readLeak } from '../src/answers.js';
import { auditBoxes, auditWords } from '../src/audit_text.js';
import { commandLines, filesOf } from '../src/commands.js';
import { findingText } from '../src/finding.js';
import { isFresh, ofWhat } from '../src/freshness.js';
import { leakNumbers } from '../src/leak_text.js';
import { linkOf, stateOf } from '../src/link.js';
import { machineFault, machineOf, machinesOf, sharingOf, withSharing } from '../src/machine.js';
import { comparedSentence, comparedText, machineFaultText, machineSays } from '../src/machine_text.js';
import { jsonOf, readFileText } from '../src/saved.js';
import { partingTexts } from '../src/seen.js';
import { auditOf, comparedOf, leakOf, machineFaultOf, pointOf, runsOf } from '../src/study.js';

const files = new Proxy({}, {
  get(_, name) {
    const place = new URL(`../../examples/${name}`, import.meta.url);
    return fs.existsSync(place) ? fs.readFileSync(place, 'utf8') : undefined;
  },
});
const plain = (html) => html.replace(/<sup>/g, '^').replace(/<[^>]*>/g, ' ').replaceAll('\u202f', ' ')
  .replace(/\s+/g, ' ').trim();
const labels = { names: ['L', 'H'], of: new Map() };
const SHARED = 'version = 1\n# all\nsharing = \'shared\' # here\ncode = { sets = 8, ways = 2, bytes = 32, hit = 0,'
  + ' miss = 8 }\n';
const state = { program: 'p', starts: 's', observer: 'L', environment: 'machine', machine: SHARED, budget: '9' };

test('each shipped machine has its text, and an environment the file that describes the same', () => {
  for (const { name, text, says } of machinesOf(files)) {
    assert.ok(text.includes('version = 1') && says, name);
    assert.equal(sharingOf(text), name.startsWith('shared') ? 'shared' : 'partitioned');
  }
  assert.equal(machineOf({ environment: 'part2', machine: SHARED }, files), files['machines/part2.toml']);
  assert.equal(machineOf(state, files), SHARED);
  assert.equal(machineOf({ environment: 'flat', machine: SHARED }, files), null);
});

test('the same machine with another sharing keeps the rest of its text', () => {
  assert.equal(withSharing(SHARED, 'partitioned'), SHARED.replace('\'shared\'', '"partitioned"'));
  assert.equal(withSharing('version = 1\n', 'shared'), null);
  assert.equal(withSharing('sharing = 1\n', 'shared'), null);
  assert.equal(sharingOf('sharing = '), null);
});

test('a refusal of a machine has its words, and the line where it stands', () => {
  const fault = (text, refusal) => {
    const { words, line } = machineFault(text, refusal);
    return [line, plain(words)];
  };
  assert.deepEqual(fault('a = 1\nb = {\n', 'machine: not TOML'), [2, 'This is not TOML']);
  assert.deepEqual(fault('\nversion = 2\n', 'machine: version'), [2, 'version = 1 has to be there']);
  assert.equal(fault('sharing = "shared"', 'machine: version')[0], null);
  assert.equal(fault(`${SHARED}\nfifth = 1\nsixth = 2\n`, 'machine: unknown key')[0], 6);
  assert.equal(fault(SHARED, 'machine: sharing')[0], 3);
  assert.match(fault('version = 1\ncode = 3\n', 'machine: code: not a bank').join(' '), /^2 code is no bank: /);
  assert.deepEqual(fault(SHARED, 'machine: code: ways'), [4, 'code has 1 to 8 ways in each set']);
  const long = 'version = 1\n[data]\nways = 1\nsets = 4097\nreplace = "oldest"\n';
  assert.deepEqual(fault(long, 'machine: data: sets'), [4, 'data has 1 to 4 096 sets']);
  assert.deepEqual(fault(long, 'machine: data: replace'), [5, 'data replaces by replace = "lru" or replace = "fifo"']);
  assert.deepEqual(fault(long, 'machine: data: not a bank')[0], 3);
  assert.deepEqual(fault(long, 'machine: costs 1013'),
    [null, 'an access may cost 1 013 cycles, and 1 000 is the most']);
  assert.deepEqual(fault(long, 'too long: machine'), [null, 'too long: machine']);
  assert.equal(machineFaultText({ words: 'code < 1', line: 4 }), 'The machine file is refused at'
    + ' <button type="button" class="place" data-machine-line="4">line 4</button>: code &lt; 1.');
  assert.equal(machineFaultText({ words: 'w', line: null }), 'The machine file is refused: w.');
});

test('what stands above the text of a machine', () => {
  assert.match(machineSays({ environment: 'flat', name: 'flat', sharing: null }), /nothing to share/);
  assert.match(machineSays({ environment: 'machine', name: undefined, sharing: 'shared' }),
    /^Your own machine: all labels share the caches\./);
  assert.match(machineSays({ environment: 'part', name: 'part, as a file', sharing: 'partitioned' }),
    /^part, as a file: each label has partitions of its own\./);
  assert.match(machineSays({ environment: 'machine', name: 'a<b', sharing: null }), /^a&lt;b\. /);
});

// As ./lab prints them of the probe for three places (examples/probe/README.md).
const BOUND = 'machine shared\nruns 3\nobserver L\nbudget 8191\nmitigations 1\ndistinct 2\nno bound: all labels share'
  + ' the banks, and the law on the write label does not hold\nrun 1 class 1\nrun 2 class 2\nrun 3 class 2\n';
const PARTED = 'machine partitioned\nruns 3\nobserver L\nbudget 8191\nlevels 1\nmitigations 1\ndistinct 1\nbound 2^13\n'
  + 'run 1 class 1\nrun 2 class 1\nrun 3 class 1\nlevel H mitigations 1 first 4096 digits 1\nsharp 1\nbits 0\nguess at'
  + ' most 1 times as often\nshared 1\nend counted: the same holds for who sees runs end\n';
const leak = (head, distinct, classes) => `machine ${head}\ndistinct ${distinct}\nleast 1 greatest 2\nmin-entropy`
  + ` 1.000000000 to 1.000000001\nshannon 0.918295833 to 0.918295835\nright at first 1 of 3 before, ${distinct} of 3`
  + ` after\nguesses 4/2 before, 8/6 after\n${classes}`;
const LEAKS = {
  shared: leak('shared\nruns 3\nobserver L\nbudget 8191\nno bound: all labels share the banks, and the law on the write'
    + ' label does not hold', 2, 'class 1 first 1\ta=0@11 b=1@20\nclass 2 first 2\ta=0@11 b=1@22\n'),
  partitioned: leak('partitioned\nruns 3\nobserver L\nbudget 8191\nbound 2^13\nsharp 1\nshared 1', 1,
    'class 3 first 1\ta=0@11 b=1@22\n'),
};

test('audits and leaks of machines', () => {
  const shared = readAudit(BOUND), parted = readAudit(PARTED);
  assert.deepEqual([shared.sharing, shared.distinct, shared.base, shared.classes], ['shared', 2, undefined, [1, 2, 2]]);
  assert.deepEqual([parted.sharing, parted.base, parted.sharp], ['partitioned', 2, 1n]);
  assert.equal(readAudit(PARTED.replace('bound 2^13\n', '')), null, 'only a shared machine has no bound');
  assert.deepEqual([readLeak(LEAKS.shared).sharing, readLeak(LEAKS.shared).distinct], ['shared', 2]);
  assert.equal(readLeak(LEAKS.partitioned).sharing, 'partitioned');
  assert.equal(readLeak(LEAKS.shared.replace('machine shared', 'machine other')), null);
});

test('of a shared machine no limit is told', () => {
  const report = readAudit(BOUND), audit = { report, isCut: false, sharp: null };
  const verdict = { kind: 'accepted', refusals: [] };
  assert.equal(plain(findingText({ verdict, audit, labels, observer: 'L' })), 'Of three runs an observer at L sees two'
    + ' different timings; no limit holds, since all labels share the caches.');
  const alike = { ...audit, report: { ...report, distinct: 1 } };
  assert.match(plain(findingText({ verdict, audit: alike, labels, observer: 'L' })),
    /cannot tell these three runs apart; no limit holds/);
  assert.equal(plain(auditBoxes(audit)),
    '2 different sequences seen in these 3 runs none no limit, since all labels share the caches');
  const words = plain(auditWords(audit, labels, { observer: 'L' }));
  assert.match(words, /: 1 relevant mitigation in each run\. All labels share the caches of this machine\./);
  assert.doesNotMatch(words, /hold for all starts|guesses/);
  const numbers = plain(leakNumbers(readLeak(LEAKS.shared)));
  assert.match(numbers, /2 exactly, by these runs: 1 bit none no limit: all labels share the caches/);
  const unfinished = { refusal: { kind: 'unfinished', text: 'unfinished: run 2 @77' } };
  assert.match(findingText({ verdict, audit: unfinished, labels, observer: 'L' }), /^No count: run 2 has not halted/);
});

// A tool that answers by the words' first one, and keeps the calls with the names of their files.
function toolOf(answers) {
  const calls = [];
  return {
    calls, has: () => true,
    async call(program, words, texts) {
      calls.push(`${program} ${words.join(' ')} | ${Object.keys(texts).join(' ')}`);
      const answer = answers[words[0]];
      return typeof answer === 'function' ? answer(words, texts) : answer;
    },
  };
}
const done = (text) => ({ status: 0, text }), NAMED = 'program.mit starts.toml';
const FILES = `${NAMED} machine.toml`, ON = '--machine machine.toml --budget 9';

test('on a machine the lab alone is asked, and its file goes with each call', async () => {
  const tool = toolOf({ bound: done(PARTED), leak: done(LEAKS.partitioned), timeline: done('run 1\nend @5\n') });
  const audit = await auditOf(tool, state);
  assert.deepEqual([audit.report.distinct, audit.sharp.sharp, audit.isCut], [1, 1n, false]);
  await leakOf(tool, state);
  await runsOf(tool, state);
  assert.deepEqual(tool.calls, [`lab bound ${NAMED} --observer L ${ON} | ${FILES}`,
    `lab leak ${NAMED} --observer L ${ON} | ${FILES}`, `lab timeline ${NAMED} ${ON} | ${FILES}`,
    `lab timeline ${NAMED} ${ON} --observer L | ${FILES}`]);
  const shared = await auditOf(toolOf({ bound: done(BOUND) }), state);
  assert.deepEqual([shared.report.sharing, shared.sharp], ['shared', null]);
  const unfinished = toolOf({ bound: { status: 10, text: 'unfinished: run 1 @9\n' } });
  assert.equal((await auditOf(unfinished, state)).refusal.kind, 'unfinished', 'no cut on a machine');
  const point = toolOf({ bound: done(PARTED), timeline: done('run 1\nend @5\n') });
  const program = 'var h : H;\nmitigate (4, H) { h := 1 }';
  const mitigate = { mark: 0, value: { at: program.indexOf('4'), end: program.indexOf('4') + 1 } };
  assert.equal((await pointOf(point, { ...state, program }, mitigate, 7)).sequences, 1);
  assert.match(point.calls[0], /^lab bound .* --machine machine\.toml /);
});

test('a machine file is looked at whatever the program is', async () => {
  const refused = toolOf({ timeline: { status: 3, text: 'machine: code: ways\n' } });
  assert.deepEqual(await machineFaultOf(refused, state), { words: 'code has 1 to 8 ways in each set', line: 4 });
  assert.equal(await machineFaultOf(toolOf({ timeline: done('run 1\nend @1\n') }), state), null);
  assert.equal(await machineFaultOf(refused, { ...state, environment: 'part' }), null);
  assert.equal(refused.calls.length, 1);
});

test('both sides are asked of the same machine, with either sharing', async () => {
  const asked = [];
  const tool = toolOf({ leak: (words, texts) => {
    const [name] = Object.keys(texts).slice(-1), sharing = sharingOf(texts[name]);
    asked.push([name, sharing, words[words.indexOf('--machine') + 1]]);
    return sharing === 'shared' ? done(LEAKS.shared) : done(LEAKS.partitioned);
  } });
  const both = await comparedOf(tool, { ...state, environment: 'part' }, SHARED);
  const [parted, shared] = asked;
  assert.deepEqual([parted, shared], ['partitioned', 'shared'].map((side) => [`${side}.toml`, side, `${side}.toml`]));
  assert.deepEqual([both.partitioned.leak.distinct, both.shared.leak.distinct], [1, 2]);
  const sentence = plain(comparedSentence(both, labels, 'L'));
  assert.match(sentence, /^Of three runs an observer at L sees one thing where each label has partitions of its own, /);
  assert.match(sentence, /two different things where all labels share the caches\. What is lost there is the law on/);
  const text = plain(comparedText(both));
  assert.match(text, /different things seen 1 2 at most, by the sharp count 1 none at most, by the bound 2 ?\^13 none/);
  assert.match(text, /right at first 1 of 3 2 of 3 /);
  assert.match(text, /With partitions 1 3 runs, first 1 a = 0 @11 … Save partitioned\.toml/);
  assert.match(text, /One cache for all 1 1 run, first 1 … b = 1 @20 2 2 runs, first 2 … b = 1 @22 Save shared\.toml/);
  const alike = { partitioned: both.partitioned, shared: { leak: both.partitioned.leak } };
  assert.match(plain(comparedSentence(alike, labels, 'L')), /sees one thing, with partitions and without; other/);
  const refusal = { kind: 'disagree', text: 'disagree: run 2: variable l' };
  assert.match(comparedSentence({ partitioned: { refusal }, shared: { refusal } }, labels, 'L'), /differs from run 1/);
  assert.equal(comparedText({ partitioned: { refusal }, shared: { refusal } }), '');
});

test('words for different sequences are where they part', () => {
  const events = (...cycles) => cycles.map((cycle) => ({ variable: 'a', value: '1', cycle }));
  assert.deepEqual(partingTexts([events(1, 5, 9), events(1, 6, 9), events(1, 6)]),
    ['… a = 1 @5 …', '… a = 1 @9', '… no more']);
  assert.deepEqual(partingTexts([events(1, 2)]), ['a = 1 @1 …']);
  assert.deepEqual(partingTexts([[], events(3)]), ['nothing', 'a = 1 @3']);
  // the same event behind different ones: here all has to be told
  assert.equal(new Set(partingTexts([events(1, 5), events(1, 6), events(2, 5), events(2, 6)])).size, 4);
});

test('a machine in the command lines, in what is fresh, in links and in files', async () => {
  const lines = commandLines(state, 'accepted', { banks: SHARED });
  assert.deepEqual(lines.map(({ line }) => line).slice(1, 3),
    [`./lab bound ${NAMED} --observer L ${ON}`, `./lab leak ${NAMED} --observer L ${ON}`]);
  assert.deepEqual(lines.slice(-2).map(({ line }) => line), ['partitioned', 'shared']
    .map((side) => `./lab leak ${NAMED} --observer L --machine ${side}.toml --budget 9`));
  assert.equal(sharingOf(lines.at(-2).files['partitioned.toml']), 'partitioned');
  assert.deepEqual(filesOf({ ...state, environment: 'part' }), { 'program.mit': 'p', 'starts.toml': 's' });
  for (const name of ['audit', 'runs', 'leak', 'points', 'compared']) {
    assert.ok(!isFresh(name, state, { ...state, machine: 'other' }), name);
    assert.ok(!isFresh(name, state, state, { budget: '', cell: '', machine: 'none' }), name);
    const named = { ...state, environment: 'part' };
    assert.ok(isFresh(name, named, { ...named, machine: 'other' }), 'where none is chosen its text does not matter');
  }
  assert.equal(ofWhat(state, { ...state, machine: 'other' }), 'another machine');
  assert.deepEqual(await stateOf(await linkOf(state)), state);
  assert.deepEqual(readFileText('a.json', jsonOf({ state })), state);
  assert.deepEqual(readFileText('mine.toml', SHARED), { environment: 'machine', machine: SHARED });
  assert.deepEqual(readFileText('a.json', '{"program": "p", "starts": "s", "environment": "machine"}'),
    { program: 'p', starts: 's' });
});
