// The program: its editor, what is drawn into it, and what the colours mean.

import { escaped, labelClass } from './colours.js';
import { faultRange, leftOutLabels, linesInside, placeRange, stepsByLine } from './decorations.js';
import { Editor } from './editor.js';
import { $, answeredOf, mitigatesNow, shown, state } from './state.js';
import { isOnlyRefused } from './steady_part.js';

const CHANGED = 'Changed since: ';

let editor = null, coloured = '';

/** The program's editor, once the page listens. */
export const theEditor = () => editor;

/** What the tool says of the text, drawn into it, where it says so of this text. */
export function drawProgram() {
  const isFresh = answeredOf.verdict?.program === state.program, { labels } = shown;
  const key = JSON.stringify([labels.names, [...labels.of]]);
  if (key !== coloured) editor.recolour();
  coloured = key;
  const faults = isFresh ? shown.verdict.refusals.filter((fault) => fault.place) : [];
  const name = isOnlyRefused() ? 'ruled' : 'wrong';
  editor.decorate({
    marks: [...faults.map((fault) => ({ ...faultRange(state.program, fault), name })), ...unsteadyMarks()],
    steps: stepsByLine(isFresh ? shown.steps : []),
    tints: linesInside(state.program, labels),
    ends: $('labels-shown').checked ? leftOutLabels(state.program, labels) : new Map(),
  });
  drawLegend();
}

// The place that may let a secret change what is seen, or when, where that was asked of this text.
function unsteadyMarks() {
  const { steady } = shown;
  if (steady?.kind !== 'no' || answeredOf.steady?.program !== state.program) return [];
  return [{ ...placeRange(state.program, steady.place), name: 'unsteady' }];
}

function drawLegend() {
  const { names } = shown.labels, isUsual = names.length === 2 && names[0] === 'L' && names[1] === 'H';
  const says = isUsual ? [' seen by everyone', ' secret, underlined'] : [];
  const parts = names.map((name, k) => `<span><b class="${labelClass(k)}">${escaped(name)}</b>${says[k] ?? ''}</span>`);
  if (shown.verdict?.kind === 'accepted') {
    parts.push('<span><i>in italics: left-out labels, the least that serve</i></span>');
  }
  if (mitigatesNow().length) parts.push('<span><span class="swatch tint-swatch"></span>inside a mitigate</span>');
  if (shown.verdict?.refusals?.some((fault) => fault.place)) {
    parts.push(isOnlyRefused() ? '<span><span class="ruled">dotted</span> refused here, by the rules alone</span>'
      : '<span><span class="wrong">wavy</span> refused here</span>');
  }
  if (shown.steady?.kind === 'no') {
    parts.push('<span><span class="unsteady">dashed</span> not known to be constant in time</span>');
  }
  $('legend').innerHTML = parts.join('');
}

/** Another program in place of the present one. */
export function loadProgram(text) {
  state.program = text;
  editor.load(text);
}

/** The example's sentence, which is cut off where the line has no room for it, and stands whole beside the pointer. */
export function sayOfExample(text) {
  $('example-says').textContent = $('example-says').title = text;
}

// The program is no example any more, and what was said of it holds of what it was.
function leaveExample() {
  const says = $('example-says');
  if ($('example').value !== 'own') $('example').value = 'own';
  if (says.textContent && !says.textContent.startsWith(CHANGED)) sayOfExample(CHANGED + says.textContent);
}

/** The program changed by the page, as one step of what can be undone. */
export function changeProgram(text) {
  editor.change(text);
}

export function focusProgram() {
  editor.focus();
}

function goTo(place) {
  const { from, to } = placeRange(state.program, place);
  editor.select(from, to);
}

/** What a person does with the text. */
export function listenProgram(changed) {
  editor = new Editor($('editor'), () => shown.labels);
  editor.onEdit(() => {
    state.program = editor.text;
    editor.clearMarks();
    editor.clearCosts();
    leaveExample();
    changed();
  });
  $('find').addEventListener('click', () => editor.find());
  $('labels-shown').addEventListener('change', drawProgram);
  document.addEventListener('click', (event) => {
    const place = event.target.closest('[data-place]')?.dataset.place;
    if (place) goTo({ line: Number(place.split(':')[0]), column: Number(place.split(':')[1]) });
  });
  $('to-program').addEventListener('click', (event) => {
    event.preventDefault();
    editor.focus();
  });
}
