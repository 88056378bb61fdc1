// The compiled code as HTML, each instruction with the line that it comes from.

import { escaped } from './colours.js';
import { lineFinder, owners, readProgram } from './language.js';
import { labelText } from './marks.js';

const MOST_LINES = 20000; // instructions that are shown

/** The instructions as HTML, each with the line of the program's text that its command begins on; 0
    where it has none. */
export function codeText(code, text, labels) {
  const program = readProgram(text), owned = program ? owners(program) : [], lineOf = lineFinder(text);
  const rows = code.slice(0, MOST_LINES).map((instruction, k) => {
    const line = owned[k] ? lineOf(owned[k].at) : 0,
      marks = instruction.labels.map((name) => labelText(name, labels)).join(', ');
    const words = `<span class="op">${instruction.name}</span> ${escaped(instruction.operand)}`;
    return `<span class="line"`
      + ` data-line="${line}"><span class="n">${instruction.number}</span>`
      + `<span class="to">${words}</span>[${marks}]<span class="paid"></span></span>`;
  });
  return rows.join('');
}
