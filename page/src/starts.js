// Start files as a table: a row a run, a column a variable. The text is what the tool reads; the
// table is drawn from it.

import { readToml, TomlFault } from './toml.js';

const isInteger = (value) => typeof value === 'bigint';
const WORD = /^[A-Za-z0-9_-]+$/;
/** A name as a key of TOML. */
export const keyText = (name) => (WORD.test(name) ? name : JSON.stringify(name));

/** The starts of a text: {head, runs}, or {fault} where the page's table can't show them. */
export function readStarts(text) {
  try {
    const file = readToml(text), runs = file.get('run');
    if (!Array.isArray(runs)) return { fault: 'there is no [[run]]' };
    const rows = runs.map((run, k) => {
      if (!(run instanceof Map)) throw new TomlFault(`run ${k + 1} is no table`);
      const memory = run.get('memory') ?? new Map();
      for (const [name, value] of memory) {
        const isNumber = isInteger(value) || (Array.isArray(value) && value.every(isInteger));
        if (!isNumber) throw new TomlFault(`run ${k + 1}: ${name} is no number`);
      }
      return { memory: new Map(memory), touch: run.get('touch') ?? [] };
    });
    return { head: /^(?:#[^\n]*\n)*/.exec(text)[0], runs: rows };
  } catch (fault) {
    if (fault instanceof TomlFault) return { fault: fault.message };
    throw fault;
  }
}

/** A value of memory or a touch as TOML. */
export function valueText(value) {
  if (Array.isArray(value)) return `[${value.map(valueText).join(', ')}]`;
  if (value instanceof Map) {
    return `{ ${[...value].map(([name, inner]) => `${keyText(name)} = ${valueText(inner)}`).join(', ')} }`;
  }
  return isInteger(value) ? String(value) : JSON.stringify(value);
}

const isSecond = (touch) => touch.get('place') === 'second';

/** The text of starts, a run after the other. */
export function writeStarts({ head = '', runs }) {
  const isWide = runs.some((run) => [...run.memory.values()].some(Array.isArray) || run.touch.some(isSecond));
  const parts = runs.map((run) => {
    const memory = run.memory.size ? `memory = ${valueText(run.memory)}\n` : '';
    const touch = run.touch.length ? `touch = ${valueText(run.touch)}\n` : '';
    return `[[run]]\n${memory}${touch}`;
  });
  return `${head}${isWide ? 'version = 2\n' : ''}${head || isWide ? '\n' : ''}${parts.join('\n')}`.replace(/^\n+/, '');
}

/** The text of a start file for one of the runs alone. */
export function oneStart(starts, number) {
  return writeStarts({ runs: [starts.runs[number]] });
}

/** The names that some run gives a value, in order of first appearance. */
export function columnsOf(starts) {
  return [...new Set(starts.runs.flatMap((run) => [...run.memory.keys()]))];
}

const isPrintable = (n) => n >= 32n && n <= 126n && n !== 34n && n !== 92n;

/** A value as the table shows it: a number, numbers with spaces, or letters in quotes where all are letters. */
export function cellText(value) {
  if (value === undefined) return '';
  if (!Array.isArray(value)) return String(value);
  if (value.length > 1 && value.every(isPrintable)) {
    return `"${value.map((n) => String.fromCharCode(Number(n))).join('')}"`;
  }
  return value.map(String).join(' ');
}

const LEAST = -(2n ** 63n), MOST = 2n ** 63n - 1n;

/** The value that a cell's text says: undefined where it is empty, null where it is none. */
export function cellValue(text, isArray) {
  const plain = text.trim();
  if (plain === '') return undefined;
  const quoted = /^"(.*)"$/.exec(plain);
  if (quoted) {
    const letters = [...quoted[1]].map((sign) => BigInt(sign.codePointAt(0)));
    return isArray ? letters : letters.length === 1 ? letters[0] : null;
  }
  const numbers = plain.split(/[\s,]+/).filter(Boolean);
  if (!numbers.every((number) => /^[+-]?\d+$/.test(number))) return null;
  const values = numbers.map((number) => BigInt(number.replace(/^\+/, '')));
  if (!values.every((value) => value >= LEAST && value <= MOST)) return null;
  if (isArray) return values;
  return values.length === 1 ? values[0] : null;
}
