// The starts: a table that can be written into, with what is seen of each run, or the same as TOML.

import { drawFreshness } from './freshness_part.js';
import { seenTexts } from './seen.js';
import { withCell, withColumnNamed, withCopy, withoutColumn, withoutRun, withRange } from './starts_edit.js';
import { rangesOf, spaceOfRun, withValues, withoutVariable } from './space.js';
import { cellValue } from './starts.js';
import { addersText, seenText, spaceTable, tableText } from './starts_table.js';
import { $, answeredOf, faults, programNow, shown, spaceNow, starts, state } from './state.js';
import { term } from './terms.js';
import { pickLane } from './time_part.js';

const MOST_MADE = 4096n; // runs that a range makes
const before = []; // the texts of starts that the table's buttons replaced, the last one last

/** The table, and the fault of the starts. */
// What was known of the program when it could be read last: a wrong letter takes nothing away from the table.
let known = [];

export function drawStarts() {
  const space = spaceNow(), read = space ? { runs: [], space } : starts();
  const box = $('starts-table'), isText = !$('starts-text').hidden;
  const refusal = ['starts', 'space'].includes(shown.audit?.refusal?.kind) && answeredOf.audit?.starts === state.starts
    ? shown.audit.refusal.text : '';
  const fault = read.fault ? `${isText ? '' : 'The table cannot show these starts. '}${read.fault}` : refusal;
  $('starts-fault').textContent = faults.cell || fault;
  const note = shown.runs && !space ? `rows of one ${term('class')} look alike, and share colour and shape` : '';
  if ($('starts-note').innerHTML !== note) $('starts-note').innerHTML = note;
  $('starts-undo').disabled = before.length === 0;
  box.hidden = isText || Boolean(read.fault);
  $('starts-add').hidden = box.hidden || space !== null;
  if (box.hidden) return;
  known = programNow()?.variables ?? known;
  const about = { variables: known, labels: shown.labels, observer: state.observer };
  // a cell that says nothing that can stand there stays as it was written
  if (!faults.cell && !box.contains(document.activeElement)) {
    box.innerHTML = space ? spaceTable(space, about) : tableText(read, about);
  }
  if (space) return;
  const adders = addersText(read, about);
  if ($('starts-add').dataset.drawn !== adders && !$('starts-add').contains(document.activeElement)) {
    $('starts-add').innerHTML = adders;
    $('starts-add').dataset.drawn = adders;
  }
  drawSeen(read);
}

// Of runs that were told for other rows than these nothing is written beside these.
function drawSeen(read) {
  const isOfRows = shown.runs
    && shown.runs.length === Math.min(read.runs.length, shown.isAll ? Infinity : shown.runs.length);
  const texts = isOfRows ? seenTexts(shown.runs) : [];
  for (const row of $('starts-table').querySelectorAll('tr[data-run]')) {
    const number = Number(row.dataset.run);
    row.querySelector('.seen').innerHTML = texts[number] === undefined ? ''
      : seenText(shown.runs[number], texts[number]);
  }
}

let replace = null;

/** Other starts in place of those that are there, as one step of what can be undone. */
export const replaceStarts = (text) => replace(text);

/** What a person does with the table and the text. */
export function listenStarts(changed) {
  const put = (text) => {
    state.starts = text;
    faults.cell = '';
    $('toml').value = text;
    changed();
  };
  replace = (text) => {
    before.push(state.starts);
    put(text);
    drawStarts();
  };
  $('starts-form').addEventListener('click', () => {
    const isText = $('starts-text').hidden;
    $('starts-text').hidden = !isText;
    $('starts-form').setAttribute('aria-pressed', String(isText));
    drawStarts();
  });
  $('starts-undo').addEventListener('click', () => {
    put(before.pop());
    drawStarts();
  });
  $('toml').addEventListener('input', () => {
    put($('toml').value);
    drawStarts();
  });
  listenCells($('starts-table'), put, changed);
  listenRows($('starts-table'), replace);
  listenAdders($('starts-add'), replace);
}

function cellFault(cell) {
  const where = `run ${Number(cell.dataset.row) + 1}, ${cell.dataset.name}: ${JSON.stringify(cell.value)}`;
  const isList = cell.dataset.array === 'true', runs = starts().runs?.length ?? 1;
  if (rangesOf(cell.value, isList)) {
    return `${where} is a range, and there are ${runs} runs: it stands for all its values where there is one run`
      + ' alone.';
  }
  return `${where} is ${isList ? 'no list of numbers with spaces between them, nor letters in quotes'
    : 'no number of 64 bits'}${runs === 1 ? ', nor values as 0..15 or 1,4,9' : ''}.`;
}

// The text of the starts with what a cell says; null where it says nothing that can stand there.
function withCellOf({ value, dataset: { row, name, array } }) {
  const isList = array === 'true', ranges = rangesOf(value, isList);
  if (spaceNow()) return ranges && withValues(state.starts, name, ranges);
  const plain = cellValue(value, isList);
  if (plain !== null) return withCell(state.starts, Number(row), name, plain);
  return ranges && spaceOfRun(state.starts, name, ranges);
}

function listenCells(box, put, changed) {
  box.addEventListener('input', (event) => {
    const cell = event.target;
    if (cell.dataset.name === undefined) return;
    const text = withCellOf(cell);
    cell.setAttribute('aria-invalid', String(text === null));
    if (text !== null) {
      put(text);
    } else {
      faults.cell = cellFault(cell);
      changed();
    }
    $('starts-fault').textContent = faults.cell;
    drawFreshness();
  });
  box.addEventListener('focusout', () => setTimeout(() => {
    if (!box.contains(document.activeElement) && !faults.cell) drawStarts();
  }));
  box.addEventListener('keydown', (event) => {
    const cell = event.target, by = { ArrowDown: 1, ArrowUp: -1, Enter: 1 }[event.key];
    if (!by || cell.dataset.name === undefined) return;
    const next = box.querySelector(
      `input[data-row="${Number(cell.dataset.row) + by}"][data-name="${cell.dataset.name}"]`);
    if (!next) return;
    event.preventDefault();
    next.focus();
    next.select();
  });
}

function listenRows(box, replace) {
  box.addEventListener('click', (event) => {
    const { copy, remove, drop } = event.target.dataset;
    if (copy === undefined && remove === undefined && drop === undefined) return;
    event.target.blur();
    if (copy !== undefined) replace(withCopy(state.starts, Number(copy)));
    else if (remove !== undefined) replace(withoutRun(state.starts, Number(remove)));
    else replace(spaceNow() ? withoutVariable(state.starts, drop) : withoutColumn(state.starts, drop));
  });
  box.addEventListener('mouseover', (event) => {
    const row = event.target.closest('tr[data-run]');
    if (row) pickLane(Number(row.dataset.run), false);
  });
}

function listenAdders(box, replace) {
  box.addEventListener('change', ({ target }) => {
    const { id, value, dataset } = target;
    if (!value || (id !== 'add-column' && dataset.rename === undefined)) return;
    target.blur();
    const variable = programNow()?.variables.find((known) => known.name === value);
    if (dataset.rename !== undefined) replace(withColumnNamed(state.starts, dataset.rename, value));
    else replace(withCell(state.starts, 0, value, variable?.length ? [0n] : 0n));
  });
  box.addEventListener('click', (event) => {
    if (event.target.id === 'range-go') makeRange(event.target, replace);
  });
}

function makeRange(pressed, replace) {
  const from = cellValue($('range-from').value, false), to = cellValue($('range-to').value, false);
  if (typeof from !== 'bigint' || typeof to !== 'bigint' || to < from || to - from >= MOST_MADE) {
    $('starts-fault').textContent = 'From and to are numbers, with at most 4096 runs between them.';
    return;
  }
  pressed.blur();
  replace(withRange(state.starts, $('range-name').value, from, to));
}
