import assert from 'node:assert/strict';
import test from 'node:test';
import { ticks } from '../src/axis.js';
import { classMark, labelClass } from '../src/colours.js';
import { spaced } from '../src/numbers.js';
import { cheapest, halveGap, powerFrom, predictions, quietFrom, sweepPicture, sweepText } from '../src/sweep.js';
import { cycleAt, mitigationText, moved, predictionEnds, runText, timeline, wholeView,
  zoomed } from '../src/timeline.js';

const bar = { number: 0, place: '9:1', level: 'H', estimate: '16', predicts: 16, misses: 0, begin: 30, worked: 115,
  lasts: 128, missesAfter: 3, end: 158, depth: 0 };
const run = (number, mitigations) =>
  ({ class: number, halted: true, end: 169, mitigations,
    events: [{ variable: 'place', value: '0', cycle: 64, isSeen: false },
      { variable: 'done', value: '1', cycle: 168, isSeen: true }] });

/** That a text of SVG is well formed: each element is ended, and attributes are in quotes. */
function wellFormed(text) {
  const open = [];
  const tags = [...text.matchAll(/<(\/?)([a-zA-Z]+)((?:\s+[a-zA-Z0-9:-]+="[^"<]*")*)\s*(\/?)>/g)];
  for (const [, end, name, , closed] of tags) {
    if (end) assert.equal(open.pop(), name);
    else if (!closed) open.push(name);
  }
  assert.deepEqual(open, []);
  assert.equal(text.split('<').length - 1, tags.length);
}

test('a timeline is well formed, and holds what is seen', () => {
  const text = timeline([run(1, [bar]), run(2, null)], { width: 900, view: [0, 200] });
  wellFormed(text);
  assert.match(text, />done = 1 @168</);
  assert.match(text, /data-run="2"/);
  assert.equal((text.match(/class="lane"/g)).length, 2);
  assert.equal((text.match(/was missed at/g)).length, 3);
  assert.ok(!text.includes('NaN'));
});

test('names are escaped', () => {
  const one = run(1, null);
  one.events[1].variable = '<&"';
  wellFormed(timeline([one], { width: 900, view: [0, 200] }));
});

test('what is outside of the view is not drawn', () => {
  const text = timeline([run(1, [bar])], { width: 900, view: [160, 165] });
  assert.ok(!text.includes('done = 1 @168'));
  assert.ok(!text.includes('worked 115'));
  wellFormed(text);
});

test('runs that have not ended, and mitigations that have not', () => {
  const open = { ...bar, worked: null, lasts: null, missesAfter: null, end: null };
  const text = timeline([{ ...run(1, [open]), halted: false }], { width: 900, view: [0, 200] });
  wellFormed(text);
  assert.match(text, /not ended at 169/);
  assert.match(mitigationText(open), /began at 30, not ended/);
});

test('ends of predictions are doublings from the beginning', () => {
  assert.deepEqual(predictionEnds(bar), [46, 62, 94, 158]);
});

test('words for runs and mitigations', () => {
  assert.equal(mitigationText(bar),
    'mitigate at 9:1, level H: worked 115 cycles from 30, waited 13 to 158; 3 predictions missed, from 16 on');
  assert.equal(runText(run(2, null), 5), 'Run 5, class 2: seen done = 1 at 168; ends at cycle 169');
});

test('zoom keeps the cycle under the pointer, and stays within the whole', () => {
  const whole = [0, 1000];
  assert.deepEqual(zoomed(whole, 500, 0.5, whole), [250, 750]);
  assert.deepEqual(zoomed([250, 750], 300, 10, whole), whole);
  assert.deepEqual(moved([0, 100], -50, whole), [0, 100]);
  assert.deepEqual(moved([0, 100], 50, whole), [50, 150]);
  assert.deepEqual(moved([800, 900], 500, whole), [900, 1000]);
  const [from, to] = zoomed(whole, 200, 0.1, whole);
  assert.ok(from <= 200 && 200 <= to && Math.abs(to - from - 100) < 1e-9);
  assert.ok(wholeView([run(1, null)])[1] > 169);
  assert.equal(cycleAt(92, 1000, [10, 20]), 10);
});

test('ticks are round and within', () => {
  assert.deepEqual(ticks(0, 550, 6), [0, 100, 200, 300, 400, 500]);
  assert.deepEqual(ticks(3, 6, 10), [3, 4, 5, 6]);
  assert.equal(spaced(1234567), '1\u202f234\u202f567');
});

test('predictions are eight to a doubling, with what else is asked for', () => {
  const found = predictions(2048, [269]);
  for (let k = 0; k <= 11; k++) assert.ok(found.includes(2 ** k));
  assert.ok(found.includes(269) && found.includes(279) && found.includes(1878));
  assert.deepEqual(found, [...new Set(found)].sort((a, b) => a - b));
  assert.deepEqual(predictions(1), [1]);
  assert.equal(powerFrom(553), 1024);
});

const POINTS = [[16, 3, 169, 553], [17, 2, 177, 313], [256, 2, 297, 553], [268, 2, 309, 577], [269, 1, 310, 310],
  [512, 1, 553, 553]].map(([prediction, sequences, shortest, longest]) =>
    ({ prediction, sequences, shortest, longest }));

test('from where on nothing is told, and what it costs', () => {
  assert.equal(quietFrom(POINTS).first.prediction, 269);
  assert.equal(quietFrom(POINTS.slice(0, 3)), null);
  assert.equal(sweepText(POINTS, 269, 512),
    'From 269 on, the runs cannot be told apart: that is one more than the longest body takes. It costs 310 cycles,'
      + ' where 512 costs 553.');
  assert.equal(sweepText(POINTS, null, 16),
    'From 269 on, the runs cannot be told apart, of the predictions that were tried. It costs 310 cycles, where 16'
      + ' costs 553 and tells 3 things.');
  const gap = POINTS.filter((one) => one.prediction !== 268);
  assert.match(sweepText(gap, null, 512), /of the predictions that were tried/);
  assert.match(sweepText(POINTS.slice(0, 3), null, 16), /another part/);
  assert.deepEqual(cheapest(POINTS).map((one) => one.prediction), [269]);
  assert.deepEqual(cheapest([...POINTS, { prediction: 2, sequences: 2, shortest: 100, longest: 120 }])
    .map((one) => one.prediction), [269, 2]);
});

test('a prediction with which not all runs halt is none that leaves one sequence', async () => {
  assert.match(sweepText(POINTS.slice(0, 3), null, 16, 2),
    /^Each prediction that was tried, and with which all runs halt, leaves 2 sequences or more\.$/);
  assert.match(sweepText(POINTS.slice(4), null, 512, 2),
    /^With each prediction that was tried, and with which all runs halt, the runs cannot be told apart\./);
  const tried = new Map(POINTS.slice(0, 3).concat(POINTS.slice(5)).map((one) => [one.prediction, one])), asked = [];
  await halveGap(tried, async (prediction) => {
    asked.push(prediction);
    if (prediction < 269) return null;
    tried.set(prediction, { prediction, sequences: 1, shortest: prediction + 41, longest: prediction + 41 });
    return tried.get(prediction);
  });
  assert.equal(quietFrom([...tried.values()]).first.prediction, 269);
  assert.deepEqual(asked, [384, 320, 288, 272, 264, 268, 270, 269]);
});

test('the picture of the sweep is well formed', () => {
  const text = sweepPicture(POINTS, { width: 900, current: 16 });
  wellFormed(text);
  assert.equal((text.match(/class="point"/g)).length, POINTS.length);
  assert.match(text, /one sequence: nothing is told/);
  assert.ok(!text.includes('NaN'));
  wellFormed(sweepPicture(POINTS.slice(0, 1), { width: 600 }));
});

test('labels and classes differ by more than colour', () => {
  assert.notEqual(labelClass(0).split(' ')[2], labelClass(1).split(' ')[2]);
  assert.equal(new Set(Array.from({ length: 32 }, (_, k) => labelClass(k))).size, 32);
  assert.match(classMark(1, 5, 5, 4), /circle/);
  assert.match(classMark(2, 5, 5, 4), /polygon/);
});
