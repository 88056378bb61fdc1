// The starts as a table, as HTML: a row a run, a column a variable, and what is seen of each run.

import { classMark, escaped, labelClass } from './colours.js';
import { counted, spaced } from './numbers.js';
import { rangeText } from './space.js';
import { cellText, columnsOf } from './starts.js';

/** How many runs the table shows. */
export const ROWS = 200;

const button = (attributes, name, text) =>
  `<button type="button" class="link" ${attributes} aria-label="${name}" title="${name}">${text}</button>`;

function headText(name, labels, isKnown) {
  const label = labels.of.get(name), number = labels.names.indexOf(label), shown = escaped(name);
  const word = number >= 0 ? `<span class="${labelClass(number)}">${shown}</span> ${escaped(label)}` : shown;
  const drop = button(`data-drop="${shown}"`, `Drop the column ${shown}`, '×');
  return `<th scope="col">${word}${isKnown ? '' : ' <em class="unknown">not in the program</em>'} ${drop}</th>`;
}

function cellOf(run, row, name, isArray) {
  const value = run.memory.get(name), text = cellText(value), wide = Math.min(text.length + 3, 26);
  const isList = isArray.get(name) ?? Array.isArray(value);
  return `<td><input data-row="${row}" data-name="${escaped(name)}" data-array="${isList}"`
    + ` value="${escaped(text)}" aria-label="run ${row + 1}, ${escaped(name)}" autocomplete="off"`
      + ` style="min-width:${wide}ch"></td>`;
}

function rowText(run, row, columns, isArray, isOnly) {
  const touches = run.touch.length ? ` <small>${counted(run.touch.length, 'touch', 'touches')}</small>` : '';
  const copy = button(`data-copy="${row}"`, `Copy run ${row + 1}`, '+');
  const remove = button(`data-remove="${row}"${isOnly ? ' disabled' : ''}`, `Remove run ${row + 1}`, '×');
  const cells = columns.map((name) => cellOf(run, row, name, isArray)).join('');
  return `<tr data-run="${row}"><td class="what">${row + 1}${touches}</td>${cells}<td class="what seen"></td>`
    + `<td class="what">${copy}${remove}</td></tr>`;
}

/** The table of starts, for the variables of a program, its labels and an observer. */
export function tableText(starts, { variables, labels, observer }) {
  const columns = columnsOf(starts),
    isArray = new Map(variables.map((variable) => [variable.name, variable.length !== null]));
  const isOnly = starts.runs.length === 1;
  const rows = starts.runs.slice(0, ROWS).map((run, row) => rowText(run, row, columns, isArray, isOnly));
  const heads = columns.map((name) => headText(name, labels, isArray.has(name) || variables.length === 0));
  const rest = starts.runs.length > ROWS
    ? `<p class="hint">${spaced(ROWS)} of ${spaced(starts.runs.length)} runs are shown here; the text has all.</p>`
    : '';
  return `<table><thead><tr><th scope="col">run</th>${heads.join('')}<th scope="col">seen at ${escaped(observer)}</th>`
    + `<th scope="col"><span class="unseen">change</span></th></tr></thead>`
      + `<tbody>${rows.join('')}</tbody></table>${rest}`;
}

/** The table of a space of starts: one row, whose cells have ranges, and how many starts these are. */
export function spaceTable(space, { variables, labels }) {
  const names = [...space.memory.keys()], known = new Map(variables.map(({ name, length }) => [name, length !== null]));
  const cells = names.map((name) => {
    const value = space.memory.get(name), text = rangeText(value), isArray = known.get(name) ?? Array.isArray(value);
    const width = Math.min(text.length + 3, 40), shown = escaped(name);
    return `<td><input data-row="0" data-name="${shown}" data-array="${isArray}" value="${escaped(text)}"`
      + ` aria-label="all starts, ${shown}" autocomplete="off" style="min-width:${width}ch"></td>`;
  });
  const heads = names.map((name) => headText(name, labels, known.has(name) || variables.length === 0));
  return `<table><thead><tr><th scope="col">starts</th>${heads.join('')}</tr></thead><tbody><tr><td class="what">${
    spaced(space.count)}</td>${cells.join('')}</tr></tbody></table><p class="hint">All choices of a value for each`
    + ' variable: a number is the one value, 0..15 are all from 0 to 15, and 1,4,9 are these three.</p>';
}

/** What can be added: a column of a variable that has none, a name for a column of no variable, runs with a range. */
export function addersText(starts, { variables, labels }) {
  const columns = columnsOf(starts),
    options = (names) => names.map((name) => `<option>${escaped(name)}</option>`).join('');
  const more = variables.map((variable) => variable.name).filter((name) => !columns.includes(name));
  const unknown = variables.length ? columns.filter((name) => !variables.some((variable) => variable.name === name))
    : [];
  const parts = [];
  if (more.length) {
    parts.push(`<label>Add a column <select id="add-column"><option></option>${options(more)}</select></label>`);
  }
  for (const name of more.length ? unknown : []) {
    const choice = `<select data-rename="${escaped(name)}"><option></option>${options(more)}</select>`;
    parts.push(`<label>Rename the column ${escaped(name)} to ${choice}</label>`);
  }
  return [...parts, rangeAdder(variables, columns, labels)].join('');
}

function rangeAdder(variables, columns, labels) {
  const scalars = variables.filter((variable) => variable.length === null).map((variable) => variable.name);
  if (!scalars.length) return '';
  const isSecret = (name) => labels.of.get(name) !== labels.names[0];
  const chosen = scalars.find((name) => isSecret(name) && columns.includes(name)) ?? scalars.find(isSecret)
    ?? scalars[0];
  const options = scalars.map((name) => `<option${name === chosen ? ' selected' : ''}>${escaped(name)}</option>`);
  return `<span><label>Runs with <select id="range-name">${options.join('')}</select></label>`
    + ' <label>from <input id="range-from" value="0" inputmode="numeric"></label>'
    + ' <label>to <input id="range-to" value="9" inputmode="numeric"></label>'
    + ' <button type="button" class="link" id="range-go">Make these runs</button></span>';
}

/** What is seen of a run, as its cell shows it: the mark and the number of its class, and the words. */
export function seenText(run, words) {
  const mark = classMark(run.class, 6, 6, 4.4);
  return `<svg width="12" height="12" viewBox="0 0 12 12"`
    + ` aria-hidden="true">${mark}</svg><span class="class">${run.class}</span>`
    + `<span class="unseen"> class: </span>${escaped(words)}`;
}
