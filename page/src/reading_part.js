// The page's own reading of the run that is looked at, where it has all that the tool tells of that run.

import { hardwareOf } from './caches.js';
import { DATA } from './data.js';
import { isFresh } from './freshness.js';
import { machineOf } from './machine.js';
import { agrees, readRunBy } from './reading.js';
import { $, answeredOf, faults, programNow, shown, starts, state } from './state.js';

/** Whether the code is wanted: where it is shown, and where a run is read by it. */
export const wantsCode = () =>
  !$('code-part').hidden || $('costs-shown').checked || $('steps-all').checked;

/** The run that is looked at, or the first one, from 0; null where there is none of what is there now. */
export function runNumber() {
  const number = Math.max(shown.lane, 0);
  return shown.runs?.[number] && isFresh('runs', answeredOf.runs, state, faults) ? number : null;
}

/** Whether there is no code of the program that is there. */
export const lacksCode = () => !isFresh('code', answeredOf.code, state);

let known = { run: null, code: null, told: null };

function told(number) {
  const { code } = shown, run = shown.runs[number], program = programNow();
  const start = (shown.listed ?? starts()).runs?.[number];
  if (!code || !start || !program || lacksCode()) return {};
  const about = { code, program, start, budget: Number(state.budget) };
  try {
    about.hardware = hardwareOf(machineOf(state, DATA));
    const reading = readRunBy(about);
    if (!reading) return { why: 'long' };
    return agrees(reading, run) ? { about, reading } : { why: 'other' };
  } catch (fault) {
    return { why: 'other', fault };
  }
}

/** The reading of the run that is looked at: {about, reading}, or {why} it has none: `long` or `other`; neither where
    there is no such run, or no code of it. */
export function readingNow() {
  const number = runNumber();
  if (number === null) return {};
  const run = shown.runs[number];
  if (known.run !== run || known.code !== shown.code || !known.told.about) {
    known = { run, code: shown.code, told: told(number) };
  }
  return known.told;
}

/** Why nothing but what the tool tells is shown of a run, in words. */
export function unreadText({ why }) {
  if (why === 'long') return 'This run has too many instructions to go through here.';
  if (why === 'other') return 'The page reads this run otherwise than the tool, so that its reading is not shown.';
  if (shown.code === null && !lacksCode()) return 'There is no code of this program to go through.';
  return '';
}

/** What is added where a run is read by code that the page made itself. */
export const ownCodeText = () => (shown.isOwnCode
  ? ' The tool compiles no refused program: its code is made here, by its least labels.' : '');
