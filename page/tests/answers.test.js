import assert from 'node:assert/strict';
import test from 'node:test';
import { bitsOf, classesOf, markSeen, readAudit, readCode, readFault, readRefusal, readRun, readTimeline, readVerdict,
  readWhy } from '../src/answers.js';

test('verdicts', () => {
  assert.deepEqual(readVerdict('accepted: commands 8, mitigates 1\n'),
    { kind: 'accepted', commands: 8, mitigates: 1, refusals: [] });
  const refused = readVerdict('refused T-ASGN at 18:1: H does not flow to L\n');
  assert.equal(refused.kind, 'refused');
  assert.deepEqual([refused.rule, refused.place, refused.from, refused.to],
    ['T-ASGN', { line: 18, column: 1 }, 'H', 'L']);
  assert.equal(refused.refusals.length, 1);
});

test('several refusals are all kept', () => {
  const text = 'refused T-ASGN at 3:1: H does not flow to L\nrefused T-IF at 4:1: B does not flow to A\n';
  assert.deepEqual(readVerdict(text).refusals.map((one) => one.place.line), [3, 4]);
});

test('refusals of texts, with and without a place', () => {
  assert.deepEqual(readRefusal('syntax: unexpected at 2:5').place, { line: 2, column: 5 });
  assert.equal(readRefusal('syntax: wide number at 1:1').what, 'wide number');
  assert.equal(readRefusal('syntax: order cycle between A and B').place, null);
  assert.equal(readRefusal('syntax: order cycle between A and B').what, 'order cycle between A and B');
  for (const kind of ['starts: version', 'disagree: run 2: variable h', 'unfinished: run 1 @99',
    'too long: image 200001', 'memory', 'usage: mitigate check FILE']) {
    assert.equal(readRefusal(kind).kind, /^(too long|\w+)/.exec(kind)[1]);
  }
});

test('runs', () => {
  const run = readRun('a[2] = -9223372036854775808 @7\nl = 7 @52\nend @53\n');
  assert.deepEqual(run.events[0], { variable: 'a[2]', value: '-9223372036854775808', cycle: 7 });
  assert.deepEqual([run.end, run.halted, run.events.length], [53, true, 2]);
  assert.equal(readRun('limit @20\n').halted, false);
  assert.equal(readRun('memory\n'), null);
});

test('audits, cuts and bounds', () => {
  const audit = readAudit('runs 2\nobserver L\nbudget 1000000\nlevels 1\nmitigations 1\ndistinct 2\nbound 2^20\nrun'
    + ' 1 class 1\nrun 2 class 2\n');
  assert.deepEqual([audit.runs, audit.observer, audit.distinct, audit.base, audit.exponent, audit.classes],
    [2, 'L', 2, 2, 20, [1, 2]]);
  const cut = readAudit('runs 1\nobserver L\nbudget 10\nlevels 1\nended 0\nhalted 0\ndistinct 1\nbound 1^4\nrun 1'
    + ' class 1\n');
  assert.deepEqual([cut.ended, cut.halted], [0, 0]);
  const sharp = readAudit('runs 9\nobserver L\nbudget 1000000\nlevels 1\nmitigations 1\ndistinct 3\nbound'
    + ' 2^20\nlevel H mitigations 1 first 16 digits 16\nsharp 16\nbits 4\nguess at most 16 times as often\n'
    + 'shared 15\nown 14\n'
    + 'end counted: the same holds for who sees runs end\n');
  assert.deepEqual([sharp.sharp, sharp.bits, sharp.guess, sharp.shared, sharp.own, sharp.levelsOf[0].first],
    [16n, 4, 16n, 15n, 14n, 16]);
  const few = readAudit('runs 1\nbound 1^40\nlevel A mitigations 0\nlevel B mitigations 2 first 3 digits 19\nsharp'
    + ' 2^128 or more\nbits 128 or more\nguess no limit told\nshared 2^128 or more\n'
    + 'own 2^128 or more\n'
    + 'end not counted: no limit told for who sees runs end\n');
  assert.deepEqual([few.sharp, few.bits, few.guess, few.shared, few.own],
    [undefined, undefined, undefined, undefined, undefined]);
  assert.deepEqual(few.levelsOf.map((one) => [one.mitigations, one.first]), [[0, 1], [2, 3]]);
  assert.deepEqual([sharp.countsEnd, few.countsEnd, audit.countsEnd], [true, false, undefined]);
  assert.equal(readAudit('disagree: run 2: variable h\n'), null);
});

test('code', () => {
  assert.deepEqual(readCode('0 PUSH 64 [L, L]\n1 MITB H 0 [L, H]\n2 NOP [L, L]\n')
    .map((one) => [one.name, one.operand, one.labels[1]]),
    [['PUSH', '64', 'L'], ['MITB', 'H 0', 'H'], ['NOP', '', 'L']]);
});

const TIMELINE = `run 1
begin #0 3:1 level H estimate 16 predicts 16 misses 0 @30
h = 1 @40
begin #1 4:3 level H estimate 4 predicts 4 misses 0 @50
end #1 4:3 level H worked 3 lasts 4 misses 0 to 0 @54
end #0 3:1 level H worked 40 lasts 64 misses 0 to 2 @94
done = 1 @100
end @101
run 2
begin #0 3:1 level H estimate 16 predicts 16 misses 0 @30
limit @90
mitigate #0 3:1 ended 1 shortest 40 longest 40 missed 1 least 41
mitigate #1 4:3 ended 1 shortest 3 longest 3 missed 0 least 4
`;

test('timelines', () => {
  const { runs, mitigates } = readTimeline(TIMELINE);
  assert.equal(runs.length, 2);
  assert.deepEqual(runs[0].mitigations.map((one) => [one.number, one.depth, one.worked, one.end, one.missesAfter]),
    [[0, 0, 40, 94, 2], [1, 1, 3, 54, 0]]);
  assert.equal(runs[1].mitigations[0].end, null);
  assert.deepEqual(mitigates.map((one) => one.least), [41, 4]);
  assert.equal(readTimeline('disagree: run 2: variable h\n'), null);
});

test('what is seen decides the class', () => {
  const all = [readRun('h = 1 @3\nl = 1 @9\nend @10\n'), readRun('h = 2 @4\nl = 1 @9\nend @10\n'),
    readRun('h = 2 @4\nl = 1 @11\nend @12\n')];
  const seen = [readRun('l = 1 @9\nend @10\n'), readRun('l = 1 @9\nend @10\n'), readRun('l = 1 @11\nend @12\n')];
  markSeen(all, seen);
  assert.deepEqual(all[0].events.map((one) => one.isSeen), [false, true]);
  assert.deepEqual(classesOf(all), [1, 1, 2]);
});

test('chains', () => {
  const why = readWhy('refused T-ASGN at 18:1: H does not flow to L\n6:5 right is declared H\n18:1 done, which is L,'
    + ' gets its value after it\n');
  assert.deepEqual(why.steps[0], { place: { line: 6, column: 5 }, text: 'right is declared H' });
  assert.deepEqual([why.refusal.rule, why.steps.length], ['T-ASGN', 2]);
});

test('faults of texts', () => {
  assert.deepEqual(readFault('syntax: unexpected at 1:6\n| var a, b : L;\n|      ^\nfound ,\nexpected : ; [\n'
    + 'each variable has a var of its own\n'), [
    { says: 'found', words: ',' },
    { says: 'expected', words: ': ; [' },
    { says: '', words: 'each variable has a var of its own' },
  ]);
});

test('bits of a power', () => {
  assert.deepEqual([[2, 20], [3, 20], [1, 20], [4, 3], [2, 0]].map(([base, exponent]) => bitsOf(base, exponent)),
    [20, 32, 0, 6, 0]);
});
