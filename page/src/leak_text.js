// What the listed runs tell, exactly, as HTML: in a sentence, as odds and as bits, and beside the limits.

import { bitsOf } from './answers.js';
import { bar } from './histogram.js';
import { boundText, counted, inWords, powerText, spaced, wholeBound } from './numbers.js';
import { term } from './terms.js';

const HALF = 'var(--work)'; // the colour of bars that are of no class

// The runs that show what no other one shows.
function aloneText({ classes, isSpace }) {
  const alone = classes.filter(({ size }) => size === 1), word = isSpace ? 'start' : 'run';
  if (alone.length === 0) return '';
  if (alone.length === 1) return ` What ${word} ${spaced(alone[0].first)} shows, no other one does.`;
  return ` ${spaced(alone.length)} of them show what no other one does.`;
}

/** What the runs show, in words. */
export function leakSentence(leak) {
  const { runs, distinct, isSpace } = leak;
  if (runs === 1) return 'One run shows one thing, and so tells nothing of its start.';
  const these = isSpace ? `All ${inWords(runs)} starts of the space` : `These ${inWords(runs)} runs`;
  if (distinct === 1) return `${these} show one and the same thing: they tell nothing of their starts.`;
  const things = `${these} show ${inWords(distinct)} different things`;
  return distinct === runs ? `${things}: each tells its start.` : `${things}.${aloneText(leak)}`;
}

function row(head, share, fill, words) {
  return `<tr><th scope="row">${head}</th><td class="bar-cell">${bar(share, fill)}</td><td>${words}</td></tr>`;
}

const manyBits = (bits) => (bits === null ? '128 bits or more' : counted(bits, 'bit'));

// What the runs show, and the limits, one below the other; bars by the bits that tell so many things apart.
function limitsText({ distinct, sharp, base, exponent, sharing, isSpace }) {
  const head = '<h3>How many things are told apart</h3><table class="numbers"><tbody>';
  const of = isSpace ? 'starts' : 'runs';
  const exact = (share) =>
    row(spaced(distinct), share, HALF, `exactly, by these ${of}: ${manyBits(bitsOf(distinct, 1))}`);
  if (isSpace) {
    const limits = 'Limits of other starts are told of a list of runs.';
    return `${head}${exact(1)}</tbody></table><p class="word">${limits}</p>`;
  }
  if (sharing === 'shared') {
    const none = row('none', 0, HALF, 'no limit: all labels share the caches');
    return `${head}${exact(1)}${none}</tbody></table>`;
  }
  const bits = [bitsOf(distinct, 1), sharp === undefined ? null : bitsOf(sharp, 1), bitsOf(base, exponent)];
  const most = Math.max(...bits, 1), share = (k) => (bits[k] ?? Math.min(128, most)) / most;
  const rounded = sharp === undefined ? '' : wholeBound(sharp), title = rounded ? ` title="${rounded}"` : '';
  const sharpText = sharp === undefined ? '2<sup>128</sup> or more' : boundText(sharp);
  return head + exact(share(0))
    + row(`<span${title}>${sharpText}</span>`, share(1), HALF, `at most, by the sharp count: ${manyBits(bits[1])}`)
    + row(powerText({ base, exponent }), share(2), HALF, `at most, by the bound: ${manyBits(bits[2])}`)
    + '</tbody></table>';
}

// A number of guesses: with two decimals where that is all of it, or with the hundredths between which it lies.
function fractionText([above, below]) {
  const hundredths = 100n * BigInt(above), of = BigInt(below), low = Number(hundredths / of);
  if (hundredths % of === 0n) return spaced(low / 100);
  const cent = (number) => `${spaced(Math.floor(number / 100))}.${String(number % 100).padStart(2, '0')}`;
  return `${spaced(above)}/${spaced(below)}, from ${cent(low)} to ${cent(low + 1)},`;
}

function guessText({ runs, right, guesses }) {
  const of = (number) => `${spaced(number)} of ${spaced(runs)}`;
  return '<h3>Who guesses the start, each being as likely</h3><table class="numbers"><tbody>'
    + row(of(right.before), right.before / runs, HALF, 'right at first, before the run is seen')
    + row(of(right.after), right.after / runs, HALF, 'right at first, after it')
    + `</tbody></table><p class="word">Guesses needed on the average: ${fractionText(guesses.before)} before, and`
    + ` ${fractionText(guesses.after)} after.</p>`;
}

/** A number of bits that lies between two numbers. */
export const bitsText = ([low, high]) => (Number(high) === 0 ? '0' : `${low} to ${high}`);

function entropyText({ minEntropy, shannon }) {
  return '<h3>In bits</h3><table class="numbers bits"><tbody>'
    + `<tr><th scope="row">${bitsText(minEntropy)}</th><td>better is the first guess: ${term('min-entropy')}</td></tr>`
    + `<tr><th scope="row">${bitsText(shannon)}</th><td>told of the start on the average: ${term('Shannon entropy')}`
    + '</td></tr></tbody></table>';
}

/** The numbers of what the runs tell. */
export function leakNumbers(leak) {
  return `<div>${limitsText(leak)}</div><div>${guessText(leak)}</div><div>${entropyText(leak)}</div>`;
}

/** Why the runs have no exact leak; empty where nothing says so. */
export function noLeakText({ verdict, audit, leak }) {
  if (verdict?.kind === 'refused') return 'What runs tell is counted of accepted programs.';
  if (verdict?.kind !== 'accepted' || !audit || leak) return '';
  if (audit.isCut) {
    return `Not all of these runs have halted by cycle ${spaced(audit.report.budget)}. What they tell is told exactly`
      + ' of runs that have.';
  }
  return 'There is no count of these runs, and so no exact leak.';
}
