// What the extension tells of a program's text: faults, labels, and a mend. Each function asks the proved programs, which
// the module of the page holds. Places are offsets into the text, from 0.

import fs from 'node:fs';
import zlib from 'node:zlib';
import { readRefusal, readWhy } from './page/answers.js';
import { commandAt, faultRange, labelsOf } from './page/decorations.js';
import { PROGRAM, WORDS } from './page/commands.js';
import { mitigates, offsetOf, pieceAt, readProgram, words } from './page/language.js';
import { call, programsOf } from './page/module.js';
import { completedBy, mendOf } from './page/study.js';

const DONE = 0;
const stateOf = (text) => ({ program: text, starts: '' });
const asked = (tool, program, words_, text) => tool.call(program, words_, { [PROGRAM]: text });

/** The programs in the module that a page's file holds, as the page's own calls have them. */
export function openTool(page = new URL('./page.html', import.meta.url)) {
  const [, packed] = /id="module-data">([A-Za-z0-9+/=\s]*)</.exec(fs.readFileSync(page, 'latin1'));
  const module = new WebAssembly.Module(zlib.inflateRawSync(Buffer.from(packed, 'base64'))), programs = programsOf(module);
  return {
    has: (program) => programs.includes(program),
    call: async (program, words_, files) => call(module, program, words_, files),
  };
}

/** The word at a place, as {from, to}; at the end of the text nothing. */
function wordRange(text, place) {
  const from = offsetOf(text, place.line, place.column);
  return { from, to: from < text.length ? from + pieceAt(text, from).text.length : from };
}

/** The faults of a text, none or one: {from, to, message, rule, related}, with the chain of reasons in `related`, each
    {from, to, message}. A fault without a place is told at the first line. */
export async function faultsOf(tool, text) {
  const { status, text: told } = await asked(tool, 'lab', WORDS.why(), text);
  if (status === DONE) return [];
  const { refusal, steps } = readWhy(told);
  const firstLine = { from: 0, to: (text.indexOf('\n') + 1 || text.length + 1) - 1 };
  const related = steps.map((step) => ({ ...wordRange(text, step.place), message: step.text }));
  return [{ ...(refusal.place ? faultRange(text, refusal) : firstLine), message: refusal.text, rule: refusal.rule ?? refusal.kind, related }];
}

/** What is known of the word at a place: {from, to, lines}, or null. Of a variable, an array and a `mitigate` its label or
    level, the least one where it is left out, with the chain of reasons; of another command its two labels. */
export async function hoverOf(tool, text, at) {
  const word = words(text).find((one) => one.at <= at && at < one.at + one.text.length);
  if (!word) return null;
  const range = { from: word.at, to: word.at + word.text.length };
  const command = commandAt(text, word.at);
  const lines = [];
  const name = word.role === 'variable' ? word.text : numberOf(text, command);
  if (name !== null) {
    const { status, text: told } = await asked(tool, 'lab', [...WORDS.why(), '--of', name], text);
    if (status === DONE) lines.push(...told.trimEnd().replace(/^#\d+ is /, 'level ').split('\n'));
  }
  if (command && command.form !== 'assign' && command.form !== 'put') {
    const completed = await completedBy(tool, stateOf(text)), marks = completed && labelsOf(completed)?.marks?.[command.number];
    if (marks) lines.push(`read label ${marks[0]}, write label ${marks[1]}`);
  }
  return lines.length ? { ...range, lines } : null;
}

// The name of a mitigate, as the lab's --of takes it; null of other commands.
function numberOf(text, command) {
  if (command?.form !== 'mitigate') return null;
  return `#${mitigates(readProgram(text)).findIndex((one) => one.at === command.at)}`;
}

/** A mend of a refused text: {title, from, to, text}, the text in place of what stands from `from` to `to`; or null. */
export async function mendFor(tool, text) {
  const { text: told } = await asked(tool, 'mitigate', WORDS.check(), text);
  const refusal = readRefusal(told.split('\n')[0]);
  const found = refusal.kind === 'refused' ? await mendOf(tool, stateOf(text), refusal) : null;
  if (!found) return null;
  const lines = found.first === found.last ? `line ${found.first}` : `lines ${found.first} to ${found.last}`;
  return { title: `Put ${lines} into a mitigate`, ...changeTo(text, found.text) };
}

// The least part of a text that another one differs in.
function changeTo(text, other) {
  const most = Math.min(text.length, other.length);
  let from = 0, end = 0;
  while (from < most && text[from] === other[from]) from++;
  while (end < most - from && text.at(-1 - end) === other.at(-1 - end)) end++;
  return { from, to: text.length - end, text: other.slice(from, other.length - end) };
}
