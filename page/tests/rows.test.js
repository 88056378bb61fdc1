// All rows of crates/worked_rows that ask for no fault, on the module that page/index.html holds, or on the one that
// MODULE names. A row's words, files and wanted text are written as worked_rows reads them.

import assert from 'node:assert/strict';
import fs from 'node:fs';
import test from 'node:test';
import { callWithRoom, programsOf } from '../src/module.js';
import { moduleBytes } from './built_module.js';

const folder = (path) => new URL(path, import.meta.url);
const TABLES = folder('../../crates/worked_rows/data/'), READER = folder('../../crates/worked_rows/src/row.rt');
const USAGE = 4, ROOM = 1 << 23;
const EMPTY_ROW = { status: 0, room: ROOM, hasFault: false, isEnd: false, program: 'mitigate' };

// The bytes that a line of a table spells: \n, \t, \r, \xNN, and any other byte after a backslash is itself.
function bytesOf(line) {
  const plain = Buffer.from(line, 'utf8').toString('latin1');
  const named = { n: '\n', t: '\t', r: '\r' };
  const text = plain.replace(
    /\\(x([0-9a-f]{2})|[\s\S])/g,
      (_, word, hex) => (hex ? String.fromCharCode(parseInt(hex, 16)) : named[word] ?? word));
  return Buffer.from(text, 'latin1');
}

function repeated(rest) {
  const [, first, end, unit] = /^(\d+) (\d+) ([\s\S]*)$/.exec(rest);
  const one = bytesOf(unit).toString('latin1'), parts = [];
  for (let k = Number(first); k < Number(end); k++) {
    parts.push(one.replace(/[#$]/g, (sign) => (sign === '#' ? k : k + 1)));
  }
  return Buffer.from(parts.join(''), 'latin1');
}

function rowsOf(table, usages) {
  const rows = [];
  for (const line of table.split('\n')) {
    const [mark] = line.split(' ', 1), rest = line.slice(mark.length + 1), row = rows.at(-1);
    if (mark === '=') rows.push({ ...EMPTY_ROW, shows: rest, words: [], files: {}, wanted: [] });
    else if (mark === '$') row.words.push(...rest.split(/\s+/).filter(Boolean));
    else if (mark === '-') row.files[row.name = rest] = [];
    else if (mark === '+') row.files[row.name].push(bytesOf(rest));
    else if (mark === '*') row.files[row.name].push(repeated(rest));
    else if (mark === '>') row.wanted.push(bytesOf(rest));
    else if (mark === 'status' || mark === 'room') row[mark] = Number(rest);
    else if (mark === 'read' || mark === 'write') row.hasFault = true;
    else if (mark === 'end') row.isEnd = true;
    else if (mark === 'lab') row.program = 'lab';
    else if (mark === 'usage') Object.assign(row, { wanted: [...row.wanted, usages[row.program]], status: USAGE });
    else if (mark) throw new Error(`a line of rows that is not known here: ${line}`);
  }
  return rows;
}

const bytes = moduleBytes();

test('rows of worked_rows on the module', { skip: bytes ? false : 'there is no page/index.html yet' }, () => {
  const module = new WebAssembly.Module(bytes);
  assert.deepEqual(programsOf(module), ['mitigate', 'lab']);
  const reader = fs.readFileSync(READER, 'utf8');
  const usageOf = (name) => Buffer.from(new RegExp(`const ${name}: &\\[u8\\] = b"([\\s\\S]*?)";`).exec(reader)[1]);
  const usages = { mitigate: usageOf('USAGE'), lab: usageOf('LAB_USAGE') };
  let count = 0, left = 0;
  const wrong = [];
  for (const name of fs.readdirSync(TABLES).sort()) {
    for (const row of rowsOf(fs.readFileSync(new URL(name, TABLES), 'utf8'), usages)) {
      if (row.hasFault) {
        left++;
        continue;
      }
      count++;
      const files = Object.fromEntries(Object.entries(row.files).map(([file, parts]) => [file, Buffer.concat(parts)]));
      const answer = callWithRoom(module, row.program, row.words, files, row.room), got = Buffer.from(answer.bytes),
        wanted = Buffer.concat(row.wanted);
      const fits = row.isEnd ? got.subarray(got.length - wanted.length).equals(wanted) : got.equals(wanted);
      if (!fits || answer.status !== row.status) {
        wrong.push(`${name}: ${row.shows}: ${answer.status} ${got.toString().slice(0, 120)}`);
      }
    }
  }
  assert.deepEqual(wrong, []);
  assert.ok(count > 1000, `${count} rows`);
  console.log(`${count} rows on the module, ${left} that ask for a fault left out`);
});
