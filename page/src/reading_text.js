// What the page's own reading of a run tells, in words: of lines, of instructions, and of what caches hold.

import { PLACES } from './caches.js';
import { escaped } from './colours.js';
import { lineFinder, owners } from './language.js';
import { labelText } from './marks.js';
import { counted, spaced } from './numbers.js';
import { predicted } from './reading.js';

const DATA_FROM = 2 ** 20, CODE_BYTES = 4, DATA_BYTES = 8;
const NAMES = { page: 'page', code: 'code line', data: 'data line', second: 'second level' };
const BANKS = {
  page: 'Translation buffer: pages', code: 'Code cache: lines', data: 'Data cache: lines',
  second: 'Second level: lines',
};

const sum = (numbers) => numbers.reduce((all, number) => all + number, 0);
const misses = ({ missed }) => sum(Object.values(missed));

/** The line of each instruction's command in a text, from 1; null where it has none, as the last one. */
export function linesOfCode(program, text) {
  const lineOf = lineFinder(text);
  return owners(program).map((command) => (command ? lineOf(command.at) : null));
}

const addedUp = (all, cost) => {
  all.times = Math.max(all.times, cost.times);
  for (const key of ['instructions', 'cycles', 'waited', 'looked']) all[key] += cost[key];
  for (const [place, count] of Object.entries(cost.missed)) all.missed[place] = (all.missed[place] ?? 0) + count;
  return all;
};

/** What the code of each line cost in a run, by line: the sums of what its instructions did. */
export function costsByLine(lines, costs) {
  const found = new Map();
  costs.forEach((cost, k) => {
    if (lines[k] === null || cost.times === 0) return;
    const none = { times: 0, instructions: 0, cycles: 0, waited: 0, looked: 0, missed: {} };
    found.set(lines[k], addedUp(found.get(lines[k]) ?? none, { ...cost, instructions: cost.times }));
  });
  return found;
}

/** A cost as the margin shows it: cycles, misses in brackets, and what was waited behind a plus. */
export function shortCost(cost) {
  const missed = misses(cost), waited = cost.waited ? ` +${spaced(cost.waited)}` : '';
  return `${spaced(cost.cycles)}${missed ? ` (${spaced(missed)})` : ''}${waited}`;
}

/** The same in words. */
export function longCost(cost) {
  const missed = Object.entries(cost.missed).map(([place, count]) => `${spaced(count)} ${NAMES[place]}`).join(', ');
  const looked = cost.looked ? `, ${spaced(cost.looked - misses(cost))} look-ups hit` : '';
  return `its code: ${counted(cost.instructions, 'instruction')}, ${counted(cost.cycles, 'cycle')}`
    + `${cost.waited ? ` and ${spaced(cost.waited)} waited` : ''}${looked}${missed ? `, missed: ${missed}` : ''}`;
}

/** Costs beside lines, with what the tool tells of a line in front: {short, long} by line. */
export function withReading(told, byLine) {
  const found = new Map([...told].filter(([line]) => !byLine.has(line)));
  for (const [line, cost] of byLine) {
    const words = told.get(line)?.long;
    found.set(line, { short: shortCost(cost), long: `${words ? `${words}; ` : ''}${longCost(cost)}` });
  }
  return found;
}

/** What an instruction cost in a run, beside the code. */
export function paidText(cost) {
  return cost.times === 0 ? 'not run' : `${cost.times > 1 ? `${spaced(cost.times)}× ` : ''}${shortCost(cost)}`;
}

const lookedText = (looked) =>
  looked.map(({ place, isHit, cost }) => `${NAMES[place]} ${isHit ? 'hit' : 'miss'}${cost ? ` ${spaced(cost)}` : ''}`)
    .join(', ');

const MOST_VALUES = 12; // variables that are told, the last ones that were assigned

/** What is so after an instruction, in words: its cost with its parts, the counts of misses, where predictions end, the
    stack, and the values so far. */
export function instructionText(machine, { code }, number, of, run) {
  const { last, clock, events, misses: counts, open, stack, layout } = machine, done = code[last.number];
  const values = [...new Map(events.map(({ variable, value }) => [variable, value]))].slice(-MOST_VALUES);
  const parts = [
    '1', ...(last.fetched.length ? [lookedText(last.fetched)] : []), ...(last.more ? [`operator ${last.more}`] : []),
    ...(last.touched.length ? [`${layout.names[last.index]}: ${lookedText(last.touched)}`] : []),
    ...(last.waited ? [`waited ${spaced(last.waited)}`] : []),
  ];
  const words = [
    `Run ${spaced(run)}, instruction ${spaced(number + 1)} of ${spaced(of)}, cycle ${spaced(clock)}: `
      + `${last.number} ${`${done.name} ${done.operand}`.trim()} [${done.labels.join(', ')}] cost `
      + `${counted(last.to - last.from, 'cycle')}: ${parts.join('; ')}.`,
  ];
  if (counts.size) words.push(`Misses: ${[...counts].map(([level, count]) => `${level} ${count}`).join(', ')}.`);
  const ends = open.map(({ begin, estimate, misses: missed }) => spaced(begin + predicted(estimate, missed)));
  if (ends.length) words.push(`Predicted until ${ends.join(', ')}.`);
  if (stack.length) words.push(`Stack: ${stack.join(' ')}.`);
  if (values.length) words.push(`Values: ${values.map(([name, value]) => `${name} = ${value}`).join(', ')}.`);
  return words.join(' ');
}

const spread = (list) => (list.length > 2 ? `${list[0]} … ${list.at(-1)}` : list.join(', '));

/** What a tag of a bank stands for: instructions by their numbers, or variables by their names. */
export function tagText(tag, { bytes }, instructions, names) {
  const from = tag * bytes, to = from + bytes - 1;
  if (from < DATA_FROM) {
    const first = Math.ceil(from / CODE_BYTES), last = Math.min(Math.floor(to / CODE_BYTES), instructions - 1);
    return first > last ? `address ${from}` : first === last ? `code ${first}` : `code ${first}–${last}`;
  }
  const first = Math.ceil((from - DATA_FROM) / DATA_BYTES), last = Math.floor((to - DATA_FROM) / DATA_BYTES);
  return spread(names.slice(first, last + 1)) || `address ${from}`;
}

function partText(caches, place, label, code, names) {
  const bank = caches.banks[place], rows = caches.held[place].get(label);
  const told = rows.map((tags, set) => [set, tags]).filter(([, tags]) => tags.length).map(([set, tags]) =>
    `${bank.sets > 1 ? `<small>${set}</small> ` : ''}${escaped(tags.map((tag) => tagText(tag, bank, code.length, names))
      .join(' · '))}`);
  return told.join('<br>') || '<span class="none">nothing</span>';
}

/** What the partitions hold, as a table: a row a bank, a column a label; of each set, which has its number, the latest
    touched first. */
export function heldTable({ caches, layout }, { code }, labels) {
  const places = PLACES.filter((place) => caches.banks[place]);
  if (places.length === 0) return '<p class="hint">Without caches there is nothing to hold.</p>';
  const names = labels.names.filter((name) => caches.home(name) === name);
  const head = names.map((name) => `<th scope="col">${names.length === 1 && labels.names.length > 1 ? 'for all labels'
    : labelText(name, labels)}</th>`).join('');
  const rows = places.map((place) => `<tr><th scope="row">${BANKS[place]}</th>${
    names.map((name) => `<td${/code/i.test(place) ? ' class="keep"' : ''}>${
      partText(caches, place, name, code, layout.names)}</td>`).join('')}</tr>`);
  return `<table class="held"><thead><tr><th scope="col">What is held</th>${head}</tr></thead>`
    + `<tbody>${rows.join('')}</tbody></table>`;
}
