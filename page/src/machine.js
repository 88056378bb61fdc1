// Machine files: which one is chosen, the same one with another sharing, and where in its text a fault of it stands.

import { spaced } from './numbers.js';
import { readTomlPlaces } from './toml.js';

/** The choice of caches that a machine file describes; the others are environments of the tool. */
export const OWN = 'machine';

const FOLDER = 'machines/', BANKS = ['page', 'code', 'data', 'second'];
const KEYS = ['version', 'sharing', ...BANKS];

/** The machine files that can be chosen: {name, says, text}. `files` are the texts of examples/. */
export function machinesOf(files) {
  return [
    ['part.toml', 'one level, partitions', files['machines/part.toml']],
    ['part2.toml', 'two levels, partitions', files['machines/part2.toml']],
    ['shared.toml', 'one level, shared', files['machines/shared.toml']],
    ['shared2.toml', 'two levels, shared', files['machines/shared2.toml']],
    ['larger.toml', 'larger caches, partitions', files['machines/larger.toml']],
    ['fifo.toml', 'first come, first gone', files['machines/fifo.toml']],
    ['real.toml', 'sizes as of today', files['machines/real.toml']],
    ['pldi2012.toml', 'near to a published one', files['machines/pldi2012.toml']],
  ].map(([name, says, text]) => ({ name, says, text }));
}

/** The machine file of what is chosen, where there is one: of `part` and `part2` that which describes the same; null
    of `flat`, which has no caches. */
export function machineOf({ environment, machine }, files) {
  return environment === OWN ? machine : files[`${FOLDER}${environment}.toml`] ?? null;
}

// Where the text of a machine says how it is shared, and what: {from, to, value}; null where that cannot be read here.
function sharingIn(text) {
  try {
    const { root, tables } = readTomlPlaces(text), value = root.get('sharing');
    const entry = tables.get(root)?.entries.get('sharing');
    return entry && typeof value === 'string' ? { from: entry.valueFrom, to: entry.to, value } : null;
  } catch {
    return null;
  }
}

/** How the machine of a text is shared, `partitioned` or `shared`; null where the page cannot read it. */
export const sharingOf = (text) => sharingIn(text)?.value ?? null;

/** The text of the same machine with another sharing; null where the page cannot read it. */
export function withSharing(text, sharing) {
  const place = sharingIn(text);
  return place && `${text.slice(0, place.from)}"${sharing}"${text.slice(place.to)}`;
}

const BANK = '{ sets = .., ways = .., bytes = .., hit = .., miss = .. }, each a number from 0 to'
  + ' 4\u202f294\u202f967\u202f295';
const WORDS = {
  'not TOML': 'This is not TOML',
  version: 'version = 1 has to be there',
  'unknown key': `a key is none of ${KEYS.slice(0, -1).join(', ')} and ${KEYS.at(-1)}`,
  sharing: 'sharing = "partitioned" or sharing = "shared" has to be there',
  'not a bank': `is no bank: ${BANK}`,
  sets: 'has 1 to 4\u202f096 sets',
  ways: 'has 1 to 8 ways in each set',
  replace: 'replaces by replace = "lru" or replace = "fifo"',
  bytes: 'has lines of at least one byte',
};

// The first place in a text of a key at its top, of one of a bank's keys, or of a key that is unknown; -1 where there
// is none.
function placeOfKey(text, bank, key) {
  const { root, tables } = readTomlPlaces(text), entries = tables.get(root)?.entries ?? new Map();
  const inside = bank && tables.get(root.get(bank))?.entries;
  if (bank) return inside?.get(key)?.from ?? entries.get(bank)?.from ?? [...inside?.values() ?? []][0]?.from ?? -1;
  if (key !== 'unknown key') return entries.get(key)?.from ?? -1;
  return Math.min(...[...entries].filter(([name]) => !KEYS.includes(name)).map(([, { from }]) => from));
}

// The line of a fault, from 1, or null where it has none.
function faultLine(text, bank, key) {
  try {
    const at = placeOfKey(text, bank, key);
    return at >= 0 && at < Infinity ? text.slice(0, at).split('\n').length : null;
  } catch (fault) {
    return Number(/^line (\d+): /.exec(fault.message)?.[1]) || null;
  }
}

/** What the tool refuses in the text of a machine, in words and with its line, or null: {words, line}. */
export function machineFault(text, refusal) {
  const costs = /^machine: costs (\d+)$/.exec(refusal);
  if (costs) return { words: `an access may cost ${spaced(costs[1])} cycles, and 1\u202f000 is the most`, line: null };
  const [, bank, what] = /^machine: (?:(page|code|data|second): )?(.+)$/.exec(refusal) ?? [];
  if (!WORDS[what]) return { words: refusal, line: null };
  return { words: `${bank ? `${bank} ` : ''}${WORDS[what]}`, line: faultLine(text, bank, what) };
}
