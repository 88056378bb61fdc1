// The compiled code beside the program: which lines come from which command.

import { codeText } from './code_text.js';
import { readingNow, runNumber } from './reading_part.js';
import { paidText } from './reading_text.js';
import { theEditor } from './program_part.js';
import { $, answeredOf, shown } from './state.js';

let isDrawn = false; // whether there is code in the box

// Whether there is code to show: the page's own where the run that is looked at is read by it as the tool tells it.
const hasCode = () => shown.code !== null && (!shown.isOwnCode || Boolean(readingNow().reading));

/** The code, or the text that stands in place of it. */
export function drawCode() {
  const box = $('code');
  isDrawn = hasCode();
  if (isDrawn) box.innerHTML = codeText(shown.code, answeredOf.code.program, shown.labels);
  else box.textContent = shown.codeText;
  $('code-says').hidden = !(isDrawn && shown.isOwnCode);
  light(theEditor().caretLine, false);
}

/** Writes what each instruction cost in a run beside it, or nothing where that is null. */
export function drawPaid(costs) {
  if (shown.isOwnCode && runNumber() !== null && hasCode() !== isDrawn) drawCode();
  $('code').querySelectorAll('.paid').forEach((place, k) => {
    const text = costs?.[k] ? paidText(costs[k]) : '';
    if (place.textContent !== text) place.textContent = text;
  });
}

/** Marks the instruction that a run is at, by its number; none where that is null. */
export function atInstruction(number) {
  for (const marked of $('code').querySelectorAll('.at')) marked.classList.remove('at');
  const line = number === null ? null : $('code').children[number];
  line?.classList.add('at');
  if (line) scrollWithin($('code'), line);
}

// Scrolls a box, and not the page, so far that a part of it is in view.
function scrollWithin(box, part) {
  const top = part.offsetTop - box.offsetTop, least = top + part.offsetHeight - box.clientHeight;
  box.scrollTop = Math.min(Math.max(box.scrollTop, least), top);
}

function light(line, isFromCode) {
  if ($('code-part').hidden || !isDrawn) return;
  const box = $('code');
  let first = null;
  for (const instruction of box.querySelectorAll('.line')) {
    const isLit = line > 0 && Number(instruction.dataset.line) === line;
    instruction.classList.toggle('lit', isLit);
    if (isLit) first ??= instruction;
  }
  theEditor().light(line, isFromCode);
  if (!isFromCode && first) scrollWithin(box, first);
}

/** What a person does with the code. `ask` asks for it when it is opened. */
export function listenCode(ask) {
  const box = $('editor');
  theEditor().onCaret((line) => light(line, false));
  box.addEventListener('mousemove', (event) => {
    if (!$('code-part').hidden && !box.contains(document.activeElement)) {
      light(theEditor().lineAtHeight(event.clientY), false);
    }
  });
  $('code').addEventListener('mouseover', (event) => {
    const instruction = event.target.closest('.line');
    if (instruction) light(Number(instruction.dataset.line), true);
  });
  $('code').addEventListener('keydown', onKey);
  $('code-open').addEventListener('click', () => {
    const isOpen = $('code-part').hidden;
    $('code-part').hidden = !isOpen;
    document.body.classList.toggle('has-code', isOpen);
    $('code-open').setAttribute('aria-expanded', String(isOpen));
    $('code-open').textContent = isOpen ? 'Without code' : 'Compiled code';
    theEditor().light(0);
    theEditor().library.refresh();
    if (isOpen) ask();
  });
}

function onKey(event) {
  const by = { ArrowDown: 1, ArrowUp: -1 }[event.key];
  if (!by || !isDrawn) return;
  event.preventDefault();
  const lines = [...$('code').querySelectorAll('.line')], lit = lines.map((line) => line.classList.contains('lit'));
  const from = by > 0 ? lit.lastIndexOf(true) : lit.indexOf(true);
  const next = lines[Math.min(Math.max(from + by, 0), lines.length - 1)];
  light(Number(next.dataset.line), true);
  next.scrollIntoView({ block: 'nearest' });
}
