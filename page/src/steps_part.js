// Going through the run that is looked at, by what the tool tells of it or instruction by instruction, with the line of
// the program and what is so then.

import { atInstruction } from './code_part.js';
import { theEditor } from './program_part.js';
import { machineAfter } from './reading.js';
import { lacksCode, ownCodeText, readingNow, runNumber, unreadText } from './reading_part.js';
import { heldTable, instructionText, linesOfCode } from './reading_text.js';
import { $, shown, state } from './state.js';
import { stepsOf, stepText } from './steps.js';

const READ = 'Of each set, by its number, the latest touched stands first. Instructions and what is held are the page’s'
  + ' own reading of the run, which has each assignment, mitigation and end that the tool tells.';

// The step, from 0, the run that it is of, and its steps: what the tool tells, or, where all instructions are gone
// through, the reading's.
let number = -1, ofRun = null, steps = [], isEach = false, lines = [];
// The machine after so many instructions, kept to go on from.
let machine = null, after = 0, ofReading = null;

function machineAt(about, reading, count) {
  if (ofReading !== reading || count < after) [machine, after] = [machineAfter(about, count), count];
  ofReading = reading;
  for (; after < count; after++) machine.step();
  return machine;
}

const countOf = () => (isEach ? readingNow().reading?.ends.length ?? 0 : steps.length);

// How many instructions of a reading end by a cycle.
function endedBy({ ends }, cycle) {
  let low = 0, high = ends.length;
  while (low < high) {
    const middle = (low + high) >> 1;
    if (ends[middle] <= cycle) low = middle + 1;
    else high = middle;
  }
  return low;
}

/** The step, where one was gone to; none of another run, or of a program that is not there any more. */
export function drawStep() {
  const at = runNumber(), run = at === null ? null : shown.runs[at], wantsEach = $('steps-all').checked;
  if (run !== ofRun || run === null) [number, steps] = [-1, run ? stepsOf(state.program, run) : []];
  ofRun = run;
  const { about, reading } = run ? readingNow() : {};
  if (isEach !== (wantsEach && Boolean(reading))) changeKind(reading);
  lines = isEach ? linesOfCode(about.program, state.program) : [];
  $('step-on').disabled = number + 1 >= countOf();
  $('step-back').disabled = number <= 0;
  $('step-says').textContent = number < 0 ? '' : isEach
    ? instructionText(machineAt(about, reading, number + 1), about, number, countOf(), at + 1)
    : stepText(steps, number, at + 1);
  drawHeld(about, reading);
}

// The other kind of steps, at the same cycle.
function changeKind(reading) {
  const cycle = number < 0 ? null : isEach ? machine?.clock ?? null : steps[number]?.cycle ?? null;
  isEach = !isEach;
  if (cycle === null || (isEach && !reading)) number = -1;
  else number = isEach ? endedBy(reading, cycle) - 1 : steps.findLastIndex((step) => step.cycle <= cycle);
}

function drawHeld(about, reading) {
  const box = $('step-state'), asks = $('steps-all').checked;
  box.hidden = number < 0 || !asks;
  atInstruction(null);
  if (box.hidden) return;
  if (!reading) {
    box.innerHTML = `<p class="hint">${unreadText(readingNow())}</p>`;
    return;
  }
  const now = machineAt(about, reading, isEach ? number + 1 : endedBy(reading, steps[number].cycle));
  box.innerHTML = `${heldTable(now, about, shown.labels)}<p class="hint">${READ}${ownCodeText()}</p>`;
  atInstruction(now.last?.number ?? null);
}

/** Goes on by steps. */
export function goBy(by) {
  drawStep();
  const next = number + by;
  if (next < 0 || next >= countOf()) return;
  number = next;
  drawStep();
  theEditor().light((isEach ? lines[machine.last.number] : steps[number].line) ?? 0, true);
}

/** What a person does with the steps. `ask` asks for the code, which a run is read by. */
export function listenSteps(ask) {
  $('step-on').addEventListener('click', () => goBy(1));
  $('step-back').addEventListener('click', () => goBy(-1));
  $('steps-all').addEventListener('change', () => {
    drawStep();
    if ($('steps-all').checked && lacksCode()) ask();
  });
}
