// What one run spent on which line, as far as the lab's timeline tells it: when a mitigate of a line began and ended,
// what its body worked, and when variables got their values that are assigned on one line alone. What an instruction
// cost, and which access missed, it does not tell.

import { allCommands, lineFinder, readProgram } from './language.js';
import { counted, spaced } from './numbers.js';

const MOST_CYCLES = 4; // cycles that are told one by one

/** The variables and arrays that a program assigns on one line alone, with that line. */
export function assignedOnce(text) {
  const program = readProgram(text), lineOf = lineFinder(text), lines = new Map();
  for (const command of program ? allCommands(program.body) : []) {
    if (command.form !== 'assign' && command.form !== 'put') continue;
    const line = lineOf(command.at);
    lines.set(command.name, lines.has(command.name) && lines.get(command.name) !== line ? null : line);
  }
  return new Map([...lines].filter(([, line]) => line !== null));
}

// The list at a key of a map, an empty one where there was none.
function listAt(map, key) {
  if (!map.has(key)) map.set(key, []);
  return map.get(key);
}

function cyclesText(cycles) {
  if (cycles.length <= MOST_CYCLES) return cycles.map((cycle) => `@${spaced(cycle)}`).join(' ');
  return `${spaced(cycles.length)}× @${spaced(cycles[0])} … @${spaced(cycles.at(-1))}`;
}

function mitigationText(mitigations) {
  const ended = mitigations.filter((mitigation) => mitigation.end !== null);
  if (ended.length === 0) return { short: 'not ended', long: 'the mitigation that began here has not ended' };
  const worked = ended.reduce((sum, { worked: cycles }) => sum + cycles, 0);
  const waited = ended.reduce((sum, { begin, end, worked: cycles }) => sum + end - begin - cycles, 0);
  const missed = ended.reduce((sum, { misses, missesAfter }) => sum + missesAfter - misses, 0);
  const times = ended.length === 1 ? '' : `${spaced(ended.length)}× `;
  const words = `${counted(ended.length, 'mitigation')}: worked ${counted(worked, 'cycle')}, waited ${spaced(waited)}`;
  return {
    short: `${times}${spaced(worked)}+${spaced(waited)}`,
    long: `${words}, ${missed ? counted(missed, 'prediction') : 'no prediction'} missed`,
  };
}

/** Of one run of a program's text, by line: {short, long}, for the margin and in words. */
export function lineCosts(text, run) {
  const found = new Map(), once = assignedOnce(text), cycles = new Map();
  for (const event of run.events) {
    const line = once.get(event.variable.replace(/\[.*$/, ''));
    if (line) listAt(cycles, line).push(event.cycle);
  }
  for (const [line, list] of cycles) {
    const first = `first at cycle ${spaced(list[0])}, last at ${spaced(list.at(-1))}`;
    const long = list.length === 1 ? `assigned at cycle ${spaced(list[0])}`
      : `assigned ${spaced(list.length)} times, ${first}`;
    found.set(line, { short: cyclesText(list), long });
  }
  const byLine = new Map();
  for (const mitigation of run.mitigations ?? []) {
    const line = Number(mitigation.place.split(':')[0]);
    listAt(byLine, line).push(mitigation);
  }
  for (const [line, list] of byLine) found.set(line, mitigationText(list));
  return found;
}
