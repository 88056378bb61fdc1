// Changes of a start file's text that leave the rest of it as it was, comments included.

import { keyText, readStarts, valueText, writeStarts } from './starts.js';
import { readTomlPlaces } from './toml.js';

/** The text with changes {from, to, put} that do not overlap. */
export function spliced(text, changes) {
  return [...changes].sort((a, b) => b.from - a.from)
    .reduce((left, { from, to, put }) => left.slice(0, from) + put + left.slice(to), text);
}

// The text of starts with its places: `runs` with the memory of each and the place of its head, or null where the runs
// do not stand as [[run]].
function placesOf(text) {
  const places = readTomlPlaces(text), runs = places.root.get('run');
  const heads = places.heads.filter((head) => head.name === 'run');
  return heads.length === runs.length ? { ...places, runs, heads } : null;
}

const lineEnd = (text, at) => {
  const end = text.indexOf('\n', at);
  return end < 0 ? text.length : end + 1;
};

// The change that gives a variable of a run a value, or takes it away where the value is undefined; null where there is
// nothing to change, and undefined where the text is of a form that is not changed in place.
function cellChange(text, { runs, heads, tables }, row, name, value) {
  const memory = runs[row].get('memory');
  if (memory === undefined) {
    if (value === undefined) return null;
    const at = lineEnd(text, heads[row].to), before = text[at - 1] === '\n' ? '' : '\n';
    return { from: at, to: at, put: `${before}memory = { ${keyText(name)} = ${valueText(value)} }\n` };
  }
  const spans = tables.get(memory), entry = spans?.entries.get(name);
  if (entry && value !== undefined) return { from: entry.valueFrom, to: entry.to, put: valueText(value) };
  if (entry) return removal(text, spans, entry);
  if (value === undefined) return null;
  return spans ? addition(text, spans, name, value) : undefined;
}

function addition(text, { entries, open, close }, name, value) {
  const pair = `${keyText(name)} = ${valueText(value)}`,
    last = [...entries.values()].sort((a, b) => a.to - b.to).at(-1);
  if (open !== null) {
    return last ? { from: last.to, to: last.to, put: `, ${pair}` } : { from: open, to: close, put: ` ${pair} ` };
  }
  const at = lineEnd(text, last.to),
    isDotted = /^[ \t]*(?:run[ \t]*\.[ \t]*)?memory[ \t]*\./.test(text.slice(last.from));
  return { from: at, to: at, put: `${text[at - 1] === '\n' ? '' : '\n'}${isDotted ? 'memory.' : ''}${pair}\n` };
}

function removal(text, { entries, open, close }, entry) {
  if (open === null) return { from: text.lastIndexOf('\n', entry.from - 1) + 1, to: lineEnd(text, entry.to), put: '' };
  const all = [...entries.values()].sort((a, b) => a.from - b.from), k = all.indexOf(entry);
  if (all.length === 1) return { from: open, to: close, put: '' };
  return k === 0 ? { from: entry.from, to: all[1].from, put: '' } : { from: all[k - 1].to, to: entry.to, put: '' };
}

// The change that makes a text one of version 2, which has arrays; none where it is one.
function versionChanges(text, { root, tables }) {
  if (root.get('version') === 2n) return [];
  const entry = tables.get(root)?.entries.get('version');
  if (entry) return [{ from: entry.valueFrom, to: entry.to, put: '2' }];
  const at = /^(?:#[^\n]*\n)*/.exec(text)[0].length;
  return [{ from: at, to: at, put: `version = 2\n${text[at] === '\n' ? '' : '\n'}` }];
}

/** A text with a variable of a run given a value, or none where that is undefined. */
export function withCell(text, row, name, value) {
  return withCells(text, [{ row, name, value }]);
}

// A text with several cells changed at once.
function withCells(text, cells) {
  const places = placesOf(text);
  const changes = places && cells.map(({ row, name, value }) => cellChange(text, places, row, name, value));
  if (!changes || changes.includes(undefined)) return rewritten(text, cells);
  const isWide = cells.some((cell) => Array.isArray(cell.value));
  return spliced(text, [...changes.filter(Boolean), ...(isWide ? versionChanges(text, places) : [])]);
}

// The same where the text is not changed in place: it is written anew.
function rewritten(text, cells) {
  const read = readStarts(text);
  for (const { row, name, value } of cells) {
    if (value === undefined) read.runs[row].memory.delete(name);
    else read.runs[row].memory.set(name, value);
  }
  return writeStarts(read);
}

/** A text without a variable in any run. */
export function withoutColumn(text, name) {
  return withCells(text, readStarts(text).runs.map((_, row) => ({ row, name, value: undefined })));
}

/** A text with another name for a variable in all runs. */
export function withColumnNamed(text, name, next) {
  const places = placesOf(text);
  if (!places) return writeStarts(renamedStarts(readStarts(text), name, next));
  const changes = [];
  for (const run of places.runs) {
    const entry = places.tables.get(run.get('memory'))?.entries.get(name);
    if (!entry) continue;
    const key = text.slice(entry.from, entry.keyTo), tail = /(?:"[^"]*"|'[^']*'|[A-Za-z0-9_-]+)[ \t]*$/.exec(key);
    const space = /[ \t]*$/.exec(key)[0].length;
    changes.push({ from: entry.from + tail.index, to: entry.keyTo - space, put: keyText(next) });
  }
  return spliced(text, changes);
}

function renamedStarts(starts, name, next) {
  const renamed = (memory) => new Map([...memory].map(([key, value]) => [key === name ? next : key, value]));
  return { ...starts, runs: starts.runs.map((run) => ({ ...run, memory: renamed(run.memory) })) };
}

// Where a run's text begins, with the lines of comments just above it, and where it ends.
function blockOf(text, { heads }, row) {
  const begin = (k) => {
    let at = heads[k].from;
    for (;;) {
      const before = text.lastIndexOf('\n', at - 2) + 1;
      if (k === 0 || at === 0 || !/^[ \t]*#/.test(text.slice(before, at))) return at;
      at = before;
    }
  };
  return { from: begin(row), head: heads[row].from, to: row + 1 < heads.length ? begin(row + 1) : text.length };
}

/** A text with a copy of a run after it. */
export function withCopy(text, row) {
  const places = placesOf(text);
  if (!places) {
    const read = readStarts(text), { memory, touch } = read.runs[row];
    return writeStarts({ ...read, runs: read.runs.toSpliced(row + 1, 0, { memory: new Map(memory), touch }) });
  }
  const { head, to } = blockOf(text, places, row), block = text.slice(head, to).replace(/\s*$/, '\n');
  const gap = text[to - 1] !== '\n' ? '\n\n' : text[to - 2] !== '\n' ? '\n' : '';
  return spliced(text, [{ from: to, to, put: `${gap}${block}${to < text.length ? '\n' : ''}` }]);
}

/** A text without a run. */
export function withoutRun(text, row) {
  const places = placesOf(text);
  if (!places) {
    const read = readStarts(text);
    return writeStarts({ ...read, runs: read.runs.toSpliced(row, 1) });
  }
  const { from, to } = blockOf(text, places, row);
  return spliced(text, [{ from, to, put: '' }]).replace(/\n\n+$/, '\n');
}

/** A text whose runs are the first one's memory with a variable going from a number to another one. */
export function withRange(text, name, from, to) {
  const read = readStarts(text), first = read.runs[0] ?? { memory: new Map(), touch: [] }, runs = [];
  for (let value = from; value <= to; value++) runs.push({ ...first, memory: new Map(first.memory).set(name, value) });
  return writeStarts({ ...read, runs });
}
