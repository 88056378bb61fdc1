// What the pictures draw, and where: positions worked out by hand from the rules beside each test.

import assert from 'node:assert/strict';
import test from 'node:test';
import { sweepPicture, pointsTable } from '../src/sweep.js';
import { mitigateText, pagesText, timeLegend } from '../src/time_text.js';
import { timeline } from '../src/timeline.js';

const has = (text, part, what = part) => assert.ok(text.includes(part), `${what}\n${text}`);
const hasNot = (text, part) => assert.ok(!text.includes(part), `not ${part}\n${text}`);

// A picture of 900 has its axis from 92 to 880: 788 for 200 cycles, so cycle c stands at 92 + 3.94 c. The first lane
// goes from 26 to 56, and its middle is 41; the second one's is 71. A body of depth 0 is 16 high, one of depth 1 12.
const outer = {
  number: 0, place: '9:1', level: 'H', estimate: '16', predicts: 16, misses: 0, begin: 30, worked: 115, lasts: 128,
  missesAfter: 3,
  end: 158, depth: 0,
};
const inner = { ...outer, number: 1, place: '10:3', begin: 50, worked: 10, predicts: 20, misses: 1, missesAfter: 1,
  end: 70, depth: 1 };
const event = (variable, value, cycle, isSeen) => ({ variable, value, cycle, isSeen });
const run = (number, mitigations) => ({
  class: number, halted: true, end: 169, mitigations,
  events: [event('place', '0', 64, false), event('done', '1', 168, true)],
});
const drawn = timeline([run(1, [outer, inner]), run(2, null)], { width: 900, view: [0, 200] });

test('a body works from its beginning for as long as it worked', () => {
  // 92 + 3.94 * 30 = 210.2, and 3.94 * 115 = 453.1
  has(drawn, '<rect x="210.2" y="33" width="453.1" height="16" rx="2" fill="var(--work)"/>');
  // 92 + 3.94 * 50 = 289, and 3.94 * 10 = 39.4
  has(drawn, '<rect x="289" y="35" width="39.4" height="12" rx="2" fill="var(--work)"/>');
});

test('and waits from then to its end', () => {
  // 92 + 3.94 * 145 = 663.3, and 3.94 * 13 = 51.22; 92 + 3.94 * 60 = 328.4, and 3.94 * 10 = 39.4
  has(drawn, '<rect x="663.3" y="33" width="51.22" height="16" rx="2" fill="url(#wait)"');
  has(drawn, '<rect x="328.4" y="35" width="39.4" height="12" rx="2" fill="url(#wait)"');
  assert.equal(drawn.split('fill="url(#wait)"').length, 3);
});

test('predictions end at 46, 62, 94 and 158; the first three are missed and crossed', () => {
  // 92 + 3.94 * 46 = 273.24, * 62 = 336.28, * 94 = 462.36, * 158 = 714.52
  for (const [cycle, x, length] of [[46, '273.24', 16], [62, '336.28', 32], [94, '462.36', 64]]) {
    has(drawn, `the prediction of ${length} was missed at ${cycle}`);
    has(drawn, `M${x} 26V56`);
    has(drawn, `M${Math.round((Number(x) - 3) * 100) / 100} 38l6 6m0 -6l-6 6`, 'a cross');
  }
  has(drawn, 'the prediction of 128 held, to 158');
  has(drawn, 'M714.52 26V56');
  hasNot(drawn, 'M711.52 38l6 6');
  has(drawn, 'the prediction of 20 held, to 70');
});

test('what is seen stands at its cycle, in the colour and shape of its class, with its words beside it', () => {
  // 92 + 3.94 * 168 = 753.92; the words do not fit to its right, and begin 10 to its left
  has(drawn, '<circle cx="753.92" cy="41" r="5.4" fill="var(--c0)"');
  has(drawn, '<text x="763.92" y="45.5" text-anchor="start" fill="var(--c0)"');
  has(drawn, '>done = 1 @168</text>');
  has(drawn, 'data-tip="done = 1 at 168, seen by the observer"');
  assert.equal(drawn.match(/, seen by the observer"/g).length, 2, 'one in each run');
  has(drawn, '<text x="763.92" y="75.5" text-anchor="start" fill="var(--c1)"');
  // the second class is a square of 2 * 0.9 * 5.4 about 753.92, 71
  has(drawn, '<polygon points="749.06,66.14 758.78,66.14 758.78,75.86 749.06,75.86" fill="var(--c1)"');
});

test('what is not seen is a line at its cycle, light on a working body and dark beside it', () => {
  // 92 + 3.94 * 64 = 344.16
  has(drawn, '<path d="M344.16 37v8" stroke="var(--card)" stroke-width="1.4"/>');
  has(drawn, '<path d="M344.16 67v8" stroke="var(--soft)" stroke-width="1.4"/>');
  has(drawn, 'data-tip="place = 0 at 64, not seen by the observer"');
});

test('a run ends in a stroke, or in an arrow where it has not ended', () => {
  // 92 + 3.94 * 169 = 757.86
  has(drawn, '<path d="M757.86 35v12"');
  has(drawn, 'data-tip="ends at 169"');
  const open = timeline([{ ...run(1, null), halted: false }], { width: 900, view: [0, 200] });
  has(open, '<path d="M753.86 36l5 5l-5 5"');
  has(open, 'data-tip="not ended at 169"');
});

test('lanes have the numbers of their runs, and the axis has round cycles at their places', () => {
  has(drawn, '<text x="6" y="45.5" fill="var(--ink)">run 1</text>');
  has(drawn, '<text x="6" y="75.5" fill="var(--ink)">run 2</text>');
  const later = timeline([run(1, null)], { width: 900, view: [0, 200], first: 101 });
  has(later, '>run 101</text>');
  has(later, 'data-run="101"');
  // below two lanes: 26 + 60 + 17; 92 + 3.94 * 100 = 486
  for (const [cycle, x] of [[0, '92'], [100, '486'], [200, '880']]) {
    has(drawn, `<text x="${x}" y="103">${cycle}</text>`);
  }
});

test('a view of some cycles alone shows those', () => {
  // from 100 to 200 a cycle is 7.88 wide: 168 stands at 92 + 68 * 7.88 = 627.84, and 46 is not drawn
  const part = timeline([run(1, [outer])], { width: 900, view: [100, 200] });
  has(part, '<circle cx="627.84" cy="41" r="5.4"');
  hasNot(part, 'was missed at 46');
  // the body began before the view: 92 + 7.88 * (30 - 100) = -459.6, and it is 7.88 * 115 = 906.2 long
  has(part, '<rect x="-459.6" y="33" width="906.2" height="16"');
});

test('many runs have lower lanes', () => {
  const many = timeline(Array.from({ length: 20 }, () => run(1, null)), { width: 900, view: [0, 200] });
  // 20 lanes of 22: the last one from 26 + 19 * 22 = 444, its middle at 455
  has(many, '<text x="6" y="459.5" fill="var(--ink)">run 20</text>');
  assert.equal(many.split('class="lane"').length - 1, 20);
});

test('what a mitigate did in all runs, in words', () => {
  const one = { place: '9:1', ended: 9, shortest: 115, longest: 268, missed: 7, least: 269 };
  const words = (made) => mitigateText(made).replace(/<[^>]*>/g, '');
  assert.equal(words(one), 'The mitigate at 9:1 worked 115 to 268 cycles; 7 of 9 missed. From a first prediction of'
    + ' 269 on none of these runs would miss.');
  assert.equal(
    words({ ...one, shortest: 1, longest: 1, missed: 0, least: 2 }),
    'The mitigate at 9:1 worked 1 cycle; none missed. From a first prediction of 2 on none of these runs would miss.',
  );
});

test('pages of 100 lanes', () => {
  assert.equal(pagesText(9, 0, 9, true), '');
  const middle = pagesText(250, 100, 100, true);
  has(middle, 'runs 101 to 200 of 250');
  hasNot(middle, 'disabled');
  assert.match(pagesText(250, 0, 100, true), /data-page="-1" disabled.*data-page="1">/);
  assert.match(pagesText(250, 200, 50, true), /data-page="-1">.*data-page="1" disabled/);
  has(pagesText(9, 0, 9, false), 'data-all');
});

test('the legend names what is drawn', () => {
  const legend = timeLegend([run(1, [outer])], { hasLab: true, hasMitigates: true });
  assert.match(legend, /fill="var\(--work\)".*a mitigate’s body works.*fill="url\(#wait\)"/);
  assert.match(legend, /fill="url\(#wait\)".*waits until its prediction is over/);
  hasNot(timeLegend([run(1, null)], { hasLab: true, hasMitigates: false }), 'body works');
  has(timeLegend([run(1, null)], { hasLab: false, hasMitigates: true }), 'are not in this module');
});

// The sweep of the password check: a picture of 900 by 320 has its axes from 58 to 876 and from 30 to 274. Nine
// doublings are 818 wide, so n stands at 58 + 818 / 9 * log2(n). The highest is 577, and 5% of it is left above: 605.85
// cycles are 244 high, so c stands at 274 - 244 * c / 605.85.
const POINTS = [[16, 3, 169, 553], [17, 2, 177, 313], [256, 2, 297, 553], [268, 2, 309, 577], [269, 1, 310, 310],
  [512, 1, 553, 553]]
  .map(([prediction, sequences, shortest, longest]) => ({ prediction, sequences, shortest, longest }));
const swept = sweepPicture(POINTS, { width: 900, current: 16 });

test('a point stands at its prediction and its longest run, and its line goes down to the shortest one', () => {
  // 16 is 4 doublings: 58 + 363.56 = 421.56; 274 - 244 * 553 / 605.85 = 51.28; 274 - 244 * 169 / 605.85 = 205.94
  has(swept, '<path d="M421.56 51.28V205.94" stroke="var(--c2)"');
  has(swept, '<circle cx="421.56" cy="51.28" r="6" fill="var(--c2)"/>');
  // 512 is 9 doublings: 876; its runs are all as long
  has(swept, '<circle cx="876" cy="51.28" r="4" fill="var(--c0)"/>');
  has(swept, 'data-prediction="16" data-tip="16: 3 sequences, 169 to 553 cycles"');
  has(swept, 'data-prediction="512" data-tip="512: one sequence, 553 cycles"');
  assert.equal(swept.split('class="point"').length - 1, 6);
});

test('from the first prediction of one sequence on the ground says that nothing is told', () => {
  // log2(269) = 8.0715, and 58 + 818 / 9 * 8.0715 = 791.61; to 876 these are 84.39
  has(swept, '<rect x="791.61" y="30" width="84.39" height="244" fill="var(--good-tint)"/>');
  has(swept, 'one sequence: nothing is told');
  hasNot(sweepPicture(POINTS.slice(0, 4), { width: 900 }), 'nothing is told');
});

test('the prediction of the program is named at its place', () => {
  has(swept, '<path d="M421.56 30V274" stroke="var(--ink)"');
  has(swept, '>now 16</text>');
});

test('the table has each point, and says which is the fastest of those that tell as little', () => {
  const rows = pointsTable(POINTS).split('<tr>').slice(2)
    .map((row) => row.replace(/<[^>]*>/g, '|').replace(/\|+/g, ' ').trim());
  assert.deepEqual(rows, [
    '16 3 169 553 Take', '17 2 177 313 Take', '256 2 297 553 Take', '268 2 309 577 Take',
    '269 1 310 310 no faster one tells as little Take', '512 1 553 553 Take',
  ]);
  assert.match(pointsTable(POINTS), /data-take="269" aria-label="Take the prediction 269"/);
});
