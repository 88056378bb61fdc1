// What the page holds: what was written and chosen, what was answered of it, and who is asked.

import { mitigates, readProgram } from './language.js';
import { readSpace } from './space.js';
import { readStarts } from './starts.js';

/** An element of the page, by its name. */
export const $ = (id) => document.getElementById(id);

/** What is asked about. */
export const state = { program: '', starts: '', observer: 'L', environment: 'part', machine: '', budget: '1000000' };

/** Words for what was written and is not asked about, since it is none: the number of cycles, a cell of the table, and
    the machine file. */
export const faults = { budget: '', cell: '', machine: '' };

/** What was answered, and how it is looked at. */
export const shown = {
  verdict: null, // the answer to `check`
  steps: [], // the chain of a refusal
  told: [], // what the lab tells of a text that is no program
  mended: null, // the offered mitigate
  // the program's, and of each variable
  labels: { names: ['L', 'H'], pairs: [], of: new Map(), marks: null, levels: null },
  // the instructions, whether the page made them itself, of a refused program, and what the tool says in place of them
  code: null, isOwnCode: false, codeText: '',
  steady: null, wantsSteady: false, // whether it is constant in time, and whether that is asked of what is accepted too
  audit: null, // {report, isCut, sharp} or {refusal}
  leak: null, // what the runs tell, exactly
  machineFault: null, // what the lab refuses in the machine file
  compared: null, // what the runs tell with partitions, and where all labels share the caches
  runs: null, mitigates: null, isAll: true, mostRuns: undefined, // the runs: all of them, or as many as are asked for
  listed: null, // the starts of the runs, where these are the first ones of the classes of a space
  view: null, page: 0, lane: -1, // the cycles and the runs that the lanes show, and the run that is looked at
  points: [], unfinished: 0, least: null, // what was tried with other predictions, and with how many not all runs halt
  isSwept: false, // whether all that there is to try was tried
  hasTune: false, tuned: null, // whether the lab tells the best first predictions, and what it told in place of a sweep
};

/** Of which text and settings each answer is, by the answer's name; what is not here was not answered. */
export const answeredOf = {};

/** Who is asked, once the module has started: `tool` for answers, `sweeper` for the points of the sweep. */
export const calls = { tool: null, sweeper: null };

let read = { text: null, starts: null, space: null };

function readNow() {
  const text = state.starts;
  if (read.text !== text) read = { text, starts: readStarts(text), space: readSpace(text) };
  return read;
}

/** The starts as a table, or the fault that leaves none. */
export const starts = () => readNow().starts;

/** The space of starts that is given in place of a list of them, or null. */
export const spaceNow = () => readNow().space;

/** The program as the page reads it; null where it is none. */
export const programNow = () => readProgram(state.program);

/** The mitigates of the program, in its order; none where it is no program. */
export function mitigatesNow() {
  const program = programNow();
  return program ? mitigates(program) : [];
}
