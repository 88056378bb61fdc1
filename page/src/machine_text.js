// What the same runs show with partitions and where all labels share the caches, side by side, as HTML.

import { classColour, classMark, escaped } from './colours.js';
import { refusalText } from './finding.js';
import { bar, MOST_CLASSES } from './histogram.js';
import { bitsText } from './leak_text.js';
import { labelText } from './marks.js';
import { boundText, counted, inWords, powerText, spaced } from './numbers.js';
import { partingTexts } from './seen.js';

const HEADS = { partitioned: 'With partitions', shared: 'One cache for all' };
const NONE = 'none';

/** What a shared machine loses, in words. */
export const LOST = 'What is lost there is the law on the write label: an access of a secret changes what public ones'
  + ' find. Every limit rests on it, so of a shared machine none is told.';

const things = (distinct) => (distinct === 1 ? 'one thing' : `${inWords(distinct)} different things`);

// What is seen on both, in words.
function bothText({ partitioned, shared }, who) {
  const word = partitioned.isSpace ? 'start' : 'run';
  const runs = partitioned.runs === 1 ? `one ${word}` : `${inWords(partitioned.runs)} ${word}s`;
  if (partitioned.distinct === shared.distinct) {
    return `Of ${runs} ${who} sees ${things(shared.distinct)}, with partitions and without; other starts may show`
      + ' more there.';
  }
  return `Of ${runs} ${who} sees ${things(partitioned.distinct)} where each label has partitions of its own, and`
    + ` ${things(shared.distinct)} where all labels share the caches.`;
}

/** The sentence about both, as HTML, or why there is none. */
export function comparedSentence({ partitioned, shared }, labels, observer) {
  const refusal = partitioned.refusal ?? shared.refusal;
  if (refusal) return refusalText(refusal, labels, observer);
  const leaks = { partitioned: partitioned.leak, shared: shared.leak };
  return `<b>${bothText(leaks, `an observer at ${labelText(observer, labels)}`)}</b> ${LOST}`;
}

// The rows of numbers: what each is called, and what it is of a leak.
const NUMBERS = [
  ['different things seen', ({ distinct }) => spaced(distinct)],
  ['at most, by the sharp count', (leak) => (leak.base === undefined ? NONE
    : leak.sharp === undefined ? '2<sup>128</sup> or more' : boundText(leak.sharp))],
  ['at most, by the bound', (leak) => (leak.base === undefined ? NONE : powerText(leak))],
  ['starts guessed right at first', ({ right, runs }) => `${spaced(right.after)} of ${spaced(runs)}`],
  ['told on the average, in bits', ({ shannon }) => bitsText(shannon)],
];

function numbersTable(leaks) {
  const heads = leaks.map(([side]) => `<th scope="col">${HEADS[side]}</th>`).join('');
  // of a space of starts no limit is told
  const told = leaks[0][1].isSpace ? NUMBERS.filter(([says]) => !says.startsWith('at most')) : NUMBERS;
  const rows = told.map(([says, of]) => {
    const cells = leaks.map(([, leak]) => `<td>${of(leak)}</td>`).join('');
    return `<tr><th scope="row">${says}</th>${cells}</tr>`;
  });
  const head = `<thead><tr><td></td>${heads}</tr></thead>`;
  return `<div class="scroll"><table class="both">${head}<tbody>${rows.join('')}</tbody></table></div>`;
}

function classesOf(side, { classes, greatest, isSpace }) {
  const texts = partingTexts(classes.map(({ events }) => events)), drawn = classes.slice(0, MOST_CLASSES);
  const rows = drawn.map(({ size, first }, k) => {
    const mark = '<svg width="12" height="12" viewBox="0 0 12 12" aria-hidden="true">'
      + `${classMark(k + 1, 6, 6, 4.4)}</svg>`;
    return `<tr><th scope="row">${mark}${k + 1}</th>`
      + `<td class="bar-cell">${bar(size / greatest, classColour(k + 1))}</td>`
      + `<td class="what">${counted(size, isSpace ? 'start' : 'run')}, first ${spaced(first)}</td>`
      + `<td>${escaped(texts[k])}</td></tr>`;
  });
  const rest = classes.length > drawn.length
    ? `<p class="hint">${spaced(drawn.length)} of ${spaced(classes.length)} classes are drawn here.</p>` : '';
  const table = `<table class="classes"><tbody>${rows.join('')}</tbody></table>`;
  const save = `<button type="button" class="link" data-save="${side}">Save ${side}.toml</button>`;
  return `<div><h3>${HEADS[side]}</h3><div class="scroll classes-box" tabindex="0" role="group"`
    + ` aria-label="Classes: ${HEADS[side]}">${table}</div>${rest}${save}</div>`;
}

/** Both sides: numbers in a table, and below it the classes of runs with what is seen of them; empty where a side has
    none. */
export function comparedText({ partitioned, shared }) {
  if (!partitioned.leak || !shared.leak) return '';
  const leaks = [['partitioned', partitioned.leak], ['shared', shared.leak]];
  const classes = leaks.map(([side, leak]) => classesOf(side, leak)).join('');
  return `${numbersTable(leaks)}<div class="both-classes">${classes}</div>`;
}

const KINDS = { partitioned: 'each label has partitions of its own', shared: 'all labels share the caches' };

/** What stands above the machine's text: which machine it is, and what can be done with it. */
export function machineSays({ environment, name, sharing }) {
  if (environment === 'flat') return 'Without caches (flat) there is nothing to share. Writing here chooses a machine.';
  const which = escaped(name ?? 'Your own machine');
  return `${which}${KINDS[sharing] ? `: ${KINDS[sharing]}` : ''}. What is written here is what runs are made on.`;
}

/** What is refused in the machine's text, as HTML. */
export function machineFaultText({ words, line }) {
  const place = line === null ? ''
    : ` at <button type="button" class="place" data-machine-line="${line}">line ${spaced(line)}</button>`;
  return `The machine file is refused${place}: ${escaped(words)}.`;
}
