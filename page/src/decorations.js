// What the editor draws about a program's text beside its words: marks, lines inside of mitigates,
// left-out labels, steps.

import { allCommands, lineFinder, offsetOf, pieces, readProgram, words } from './language.js';

/** Labels of a program as the tool completed them: of variables by name, of commands by number, of
    mitigates' levels. */
export function labelsOf(canonical) {
  const program = readProgram(canonical);
  if (!program) return null;
  const commands = allCommands(program.body);
  return {
    names: program.labels,
    pairs: program.pairs,
    of: new Map(program.variables.map((variable) => [variable.name, variable.label])),
    marks: commands.map((command) => command.marks),
    levels: commands.filter((command) => command.form === 'mitigate').map((command) => command.level),
  };
}

/** The labels that a text itself writes; variables without one are not in it. */
export function writtenLabels(text) {
  const program = readProgram(text), found = words(text), of = new Map();
  found.forEach((word, k) => {
    if (word.text !== 'var') return;
    const end = found.findIndex((other, at) => at > k && (other.text === ';' || other.kind === 'keyword'));
    const part = found.slice(k + 1, end < 0 ? k + 7 : end);
    const label = part.find((other) => other.role === 'label');
    if (part[0]?.kind === 'name' && label) of.set(part[0].text, label.text);
  });
  return { names: program?.labels ?? headerLabels(found), pairs: program?.pairs ?? [], of, marks: null, levels: null };
}

function headerLabels(found) {
  if (found[0]?.text !== 'labels') return ['L', 'H'];
  const end = found.findIndex((word) => word.text === ';');
  return found.slice(1, end < 0 ? undefined : end).filter((word) => word.kind === 'name').map((word) => word.text);
}

/** What stands at the ends of lines, by the line's number: labels of variables and levels that were
    left out, and marks. */
export function leftOutLabels(text, labels) {
  const program = readProgram(text), found = new Map(), lineOf = lineFinder(text);
  const add = (at, added) => found.set(lineOf(at), [...(found.get(lineOf(at)) ?? []), added]);
  const commands = program && labels.marks ? allCommands(program.body) : [];
  if (commands.length === 0 || commands.length !== labels.marks.length) return found; // they are of an earlier text
  for (const variable of program.variables) {
    if (variable.label === null && labels.of.has(variable.name)) add(variable.at, `: ${labels.of.get(variable.name)}`);
  }
  let level = 0;
  for (const command of commands) {
    if (command.form === 'mitigate') {
      if (command.level === null && labels.levels[level]) add(command.head - 1, `, ${labels.levels[level]}`);
      level++;
    }
    const marks = labels.marks[command.number];
    if (!command.marks && !command.isAdded && marks) {
      add(command.parts.length ? command.head - 1 : command.end - 1, `@[${marks.join(', ')}]`);
    }
  }
  return found;
}

/** The lines inside of mitigates, each with the number of the outermost one's level. */
export function linesInside(text, labels) {
  const found = new Map(), lineOf = lineFinder(text), program = readProgram(text);
  let level = 0;
  const walk = (commands, isInside) => {
    for (const command of commands) {
      const isOutermost = command.form === 'mitigate' && !isInside;
      if (command.form === 'mitigate') {
        const name = labels.levels?.[level] ?? command.level;
        level++;
        if (isOutermost) {
          const last = lineOf(command.end - 1);
          for (let line = lineOf(command.head) + 1; line < last; line++) {
            found.set(line, Math.max(labels.names.indexOf(name), 0));
          }
        }
      }
      for (const part of command.parts) walk(part, isInside || isOutermost);
    }
  };
  walk(program?.body ?? [], false);
  return found;
}

/** The part of a text that a fault is about, as {from, to}: of a refusal the command to its head's end, at most to the
    line's; of a syntax fault its word; at the text's end, where a word is missing, nothing. */
export function faultRange(text, fault) {
  const from = offsetOf(text, fault.place.line, fault.place.column);
  if (from >= text.length) return { from: text.length, to: text.length };
  const lineEnd = text.indexOf('\n', from), most = lineEnd < 0 ? text.length : lineEnd;
  const command = fault.kind === 'refused' ? commandAt(text, from) : null;
  const piece = pieces(text.slice(from, most || undefined))[0];
  return { from, to: Math.min(command ? command.head : from + (piece?.text.length ?? 0), most) };
}

/** The part of a text that a place is about: its command to the head's end, or its word. */
export function placeRange(text, place) {
  return faultRange(text, { kind: 'refused', place });
}

/** The command of a text that begins at a place; where an `if` has no `else`, the `if` and not the
    skip that is added. */
export function commandAt(text, at) {
  const program = readProgram(text);
  return program ? allCommands(program.body).find((command) => command.at === at && !command.isAdded) ?? null : null;
}

/** The numbers of steps by the lines on which they stand: [{number, isLast}]. */
export function stepsByLine(steps) {
  const found = new Map();
  steps.forEach((step, k) => {
    const { line } = step.place;
    found.set(line, [...(found.get(line) ?? []), { number: k + 1, isLast: k === steps.length - 1 }]);
  });
  return found;
}
