// Spaces of starts: a start file of version 3 gives values of variables in place of runs (docs/FORMATS.md).

import { cellText, keyText, readStarts, valueText, writeStarts } from './starts.js';
import { spliced } from './starts_edit.js';
import { readToml, readTomlPlaces, TomlFault } from './toml.js';

const ITEM = /^(-?\d{1,19})(?:\.\.(-?\d{1,19}))?$/;
const isTable = (value) => value instanceof Map;

const sum = (counts) => counts.reduce((all, { count }) => all + count, 0n);
const only = (value) => ({ items: [{ first: value, count: 1n }], count: 1n });

// The whole numbers from one to another one, of a text A or A..B; null where it is neither.
function itemOf(text) {
  const found = ITEM.exec(text.replace(/^ +| +$/g, ''));
  if (!found) return null;
  const first = BigInt(found[1]), last = BigInt(found[2] ?? found[1]);
  return first > last ? null : { first, count: last - first + 1n };
}

// The values of an integer, or of a text with items between commas: the items, and how many values there are; null
// where it is neither.
function choiceOf(value) {
  if (typeof value === 'bigint') return only(value);
  const isList = typeof value === 'string' && !/^ | $/.test(value);
  const items = isList ? value.split(',').map(itemOf) : [null];
  return items.includes(null) ? null : { items, count: sum(items) };
}

// The value with a number, from 0.
function valueAt({ items }, number) {
  let left = number;
  for (const { first, count } of items) {
    if (left < count) return first + left;
    left -= count;
  }
  return 0n;
}

/** The space that a text gives: {memory, touch, count} with the values of each variable, lists of arrays; null where
    it gives none. */
export function readSpace(text) {
  try {
    const file = readToml(text), space = file.get('space');
    if (file.get('version') !== 3n || !isTable(space)) return null;
    const memory = new Map([...space.get('memory') ?? []].map(([name, value]) =>
      [name, Array.isArray(value) ? value.map(choiceOf) : choiceOf(value)]));
    const all = [...memory.values()].flat();
    if (all.includes(null)) return null;
    return { memory, touch: space.get('touch') ?? [], count: all.reduce((product, { count }) => product * count, 1n) };
  } catch (fault) {
    if (fault instanceof TomlFault) return null;
    throw fault;
  }
}

/** Whether a text gives a space, or means to. */
export const isSpace = (text) => /^\s*version\s*=\s*3\s*(#|$)/m.test(text);

/** The memory of a start of a space, by its number from 1: the variable that is declared last goes round first. */
export function startAt(space, variables, number) {
  const memory = new Map();
  let left = BigInt(number) - 1n;
  const chosen = (choice) => {
    const place = left % choice.count;
    left /= choice.count;
    return valueAt(choice, place);
  };
  for (const { name } of [...variables].reverse()) {
    const value = space.memory.get(name);
    if (value === undefined) continue;
    memory.set(name, Array.isArray(value) ? value.toReversed().map(chosen).reverse() : chosen(value));
  }
  return new Map([...memory].reverse());
}

/** The text of a start file of some starts of a space, as a list. */
export function listed(space, variables, numbers) {
  const runs = numbers.map((number) => ({ memory: startAt(space, variables, number), touch: space.touch }));
  return writeStarts({ runs });
}

const itemText = ({ first, count }) => (count === 1n ? String(first) : `${first}..${first + count - 1n}`);
const choiceText = ({ items }) => items.map(itemText).join(',');

/** Values as a cell shows them. */
export const rangeText = (value) => [value].flat().map(choiceText).join(' ');

/** The values that a cell's text says: numbers and A..B with commas between them, or for an array such texts with
    spaces between them; null where it says none. */
export function rangesOf(text, isArray) {
  const parts = isArray ? text.trim().split(/,?\s+/).filter(Boolean) : [text.trim()];
  const all = parts.map(choiceOf);
  if (all.length === 0 || all.includes(null)) return null;
  return isArray ? all : all[0];
}

/** The values of a start that others of the space do not have, in words. */
export function rangedText(space, memory) {
  const isRanged = (name) => [space.memory.get(name)].flat().some(({ count }) => count > 1n);
  return [...memory].filter(([name]) => isRanged(name))
    .map(([name, value]) => `${name} = ${cellText(value)}`).join(', ');
}

const tomlChoice = (choice) => (choice.count === 1n ? choiceText(choice) : JSON.stringify(choiceText(choice)));
const tomlValue = (value) => (Array.isArray(value) ? `[${value.map(tomlChoice).join(', ')}]` : tomlChoice(value));

function written({ memory, touch }, head = '') {
  const pairs = [...memory].map(([name, value]) => `${keyText(name)} = ${tomlValue(value)}`);
  const touches = touch.length ? `touch = ${valueText(touch)}\n` : '';
  return `${head}version = 3\n\n[space]\nmemory = { ${pairs.join(', ')} }\n${touches}`;
}

// The comments at the head of a text.
const headOf = (text) => /^(?:#[^\n]*\n)*/.exec(text)[0];

/** A text of a space with other values for a variable; the rest of it stays, comments included. */
export function withValues(text, name, value) {
  const { root, tables } = readTomlPlaces(text), memory = root.get('space').get('memory');
  const entry = memory && tables.get(memory)?.entries.get(name);
  if (entry) return spliced(text, [{ from: entry.valueFrom, to: entry.to, put: tomlValue(value) }]);
  const space = readSpace(text);
  return written({ ...space, memory: new Map(space.memory).set(name, value) }, headOf(text));
}

/** A text of a space without a variable, which is 0 then. */
export function withoutVariable(text, name) {
  const space = readSpace(text);
  return written({ ...space, memory: new Map([...space.memory].filter(([other]) => other !== name)) }, headOf(text));
}

/** The space of a list of one run, with these values for a variable; null of other lists. */
export function spaceOfRun(text, name, value) {
  const { runs = [], head = '' } = readStarts(text);
  if (runs.length !== 1) return null;
  const memory = new Map([...runs[0].memory].map(([key, old]) =>
    [key, Array.isArray(old) ? old.map(only) : only(old)]));
  return written({ memory: memory.set(name, value), touch: runs[0].touch }, head);
}
