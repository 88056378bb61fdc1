// The colours of style.css against the grounds on which they stand: at least 4.5 for text, 3 for marks of pictures.

import assert from 'node:assert/strict';
import fs from 'node:fs';
import test from 'node:test';

const style = fs.readFileSync(new URL('../src/style.css', import.meta.url), 'utf8');
const pairs = Object.fromEntries(
  [...style.matchAll(/--([a-z0-9-]+): light-dark\((#[0-9a-f]{6}), (#[0-9a-f]{6})\)/g)].map(
    ([, name, light, dark]) => [name, [light, dark]]));

const light = (colour) => {
  const [r, g, b] = [1, 3, 5].map((k) => parseInt(colour.slice(k, k + 2), 16) / 255)
    .map((c) => (c <= 0.04045 ? c / 12.92 : ((c + 0.055) / 1.055) ** 2.4));
  return 0.2126 * r + 0.7152 * g + 0.0722 * b;
};
const contrast = (a, b) => {
  const [low, high] = [light(a), light(b)].sort((x, y) => x - y);
  return (high + 0.05) / (low + 0.05);
};

function demand(names, grounds, least) {
  for (const name of names) {
    for (const ground of grounds) {
      for (const scheme of [0, 1]) {
        const found = contrast(pairs[name][scheme], pairs[ground][scheme]);
        assert.ok(found >= least, `${name} on ${ground}, ${scheme ? 'dark' : 'light'}: ${found.toFixed(2)}`);
      }
    }
  }
}

const LABELS = ['l0', 'l1', 'l2', 'l3', 'l4', 'l5', 'l6', 'l7'];

test('texts can be read', () => {
  demand(['ink', 'soft', 'bad', 'good'], ['paper', 'card', 'code'], 4.5);
  demand(['good', 'ink'], ['good-tint'], 4.5);
  demand(['bad', 'ink'], ['bad-tint'], 4.5);
  demand(LABELS, ['card', 'code'], 4.5);
});

test('labels can be read where lines are tinted or lit', () => {
  demand([...LABELS, 'ink', 'soft'], ['t0', 't1', 't2', 't3', 't4', 't5', 't6', 't7'], 4.5);
  demand([...LABELS, 'ink', 'soft'], ['lit'], 4.5);
});

test('marks of pictures can be seen', () => {
  demand(['c0', 'c1', 'c2', 'c3', 'c4', 'c5'], ['card', 'code'], 4.5);
  demand(['work', 'edge'], ['card', 'code'], 3);
});
