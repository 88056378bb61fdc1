// The editor: the library's, with what the tool says of the text drawn into it.

import { modeOf } from './mode.js';

/** Of two texts, the part in which they differ: {from, to, put} changes the first one into the second. */
export function difference(before, after) {
  const most = Math.min(before.length, after.length);
  let head = 0, tail = 0;
  while (head < most && before[head] === after[head]) head++;
  while (tail < most - head && before[before.length - 1 - tail] === after[after.length - 1 - tail]) tail++;
  return { from: head, to: before.length - tail, put: after.slice(head, after.length - tail) };
}

/** What Enter puts in: the line's indent, two spaces more after an open brace. */
export function indentAfter(before) {
  return `\n${/^[ \t]*/.exec(before)[0]}${/\{\s*$/.test(before) ? '  ' : ''}`;
}

/** How many columns of white space a line begins with; what does not fit in its row goes on below behind as many. */
export function indentOf(line, tabSize) {
  let columns = 0;
  for (const sign of /^[ \t]*/.exec(line)[0]) columns += sign === '\t' ? tabSize - columns % tabSize : 1;
  return columns;
}

function keepIndent(library) {
  const { line, ch } = library.getCursor('from');
  library.replaceSelection(indentAfter(library.getLine(line).slice(0, ch)), 'end', '+input');
  library.scrollIntoView(null);
}

const GUTTERS = ['CodeMirror-linenumbers', 'steps'], COSTS = 'costs';

/** The editor in a box. `labelsNow` gives the labels that words are coloured by. */
export class Editor {
  constructor(box, labelsNow) {
    const { CodeMirror } = globalThis;
    CodeMirror.defineMode('timed', () => modeOf(labelsNow));
    this.library = CodeMirror(box, {
      // a line that is too long goes on below: scrolling sideways lays out all that is in view at each key
      mode: 'timed', lineNumbers: true, lineWrapping: true, matchBrackets: true, gutters: GUTTERS,
      inputStyle: 'contenteditable', screenReaderLabel: 'Program', undoDepth: 2000, tabSize: 4, indentUnit: 2,
      cursorScrollMargin: 24,
      extraKeys: { Tab: false, 'Shift-Tab': false, Enter: keepIndent },
    });
    this.isLoading = false;
    this.marks = [];
    this.lines = new WeakMap(); // of a line of the library: its tint and what stands at its end
    this.drawn = '';
    this.lit = null;
    this.hasCosts = this.hasSteps = false;
    this.library.on('renderLine', (_, line, element) => this.drawLine(line, element));
    this.library.on('beforeChange', (library, change) => {
      this.drawn = '';
      for (let line = change.from.line; line <= change.to.line; line++) this.lines.delete(library.getLineHandle(line));
    });
    this.nameInputs(box);
  }

  nameInputs(box) {
    const input = this.library.getInputField();
    for (const [name, value] of [['role', 'textbox'], ['aria-multiline', 'true'], ['aria-describedby', 'verdict']]) {
      input.setAttribute(name, value);
    }
    // the field of the library's dialogs has its name beside it, and no label
    new MutationObserver(() => {
      for (const field of box.querySelectorAll('.CodeMirror-dialog input')) field.setAttribute('aria-label', 'Find');
    }).observe(this.library.getWrapperElement(), { childList: true });
  }

  get text() {
    return this.library.getValue();
  }

  /** Calls `listener` after each change that a person made. */
  onEdit(listener) {
    this.library.on('change', () => {
      if (!this.isLoading) listener();
    });
  }

  /** Calls `listener` with the line of the caret, from 1, when that may have changed. */
  onCaret(listener) {
    this.library.on('cursorActivity', (library) => listener(library.getCursor().line + 1));
  }

  /** Another program: what was done to the one before cannot be undone here. */
  load(text) {
    this.isLoading = true;
    this.library.setValue(text);
    this.library.clearHistory();
    this.library.setCursor(0, 0);
    this.isLoading = false;
  }

  /** The same program, changed: one step of what can be undone. */
  change(text) {
    const { from, to, put } = difference(this.text, text), place = (at) => this.library.posFromIndex(at);
    this.library.replaceRange(put, place(from), place(to), 'page');
  }

  select(from, to) {
    const place = (at) => this.library.posFromIndex(at);
    this.library.setSelection(place(from), place(to), { scroll: false });
    this.library.scrollIntoView({ from: place(from), to: place(to) }, 60);
    this.library.focus();
  }

  focus() {
    this.library.focus();
  }

  find() {
    this.library.execCommand('find');
  }

  get caretLine() {
    return this.library.getCursor().line + 1;
  }

  /** Takes away what the verdict drew. */
  clearMarks() {
    for (const mark of this.marks) mark.clear();
    this.marks = [];
    if (this.hasSteps) this.library.clearGutter('steps');
    this.hasSteps = false;
  }

  /** Takes away the cycles of a run, which are of a text that has changed. */
  clearCosts() {
    if (this.hasCosts) this.library.clearGutter(COSTS);
    this.hasCosts = false;
  }

  /** Draws cycles into the margin, {short, long} by line; without such a margin where they are null. */
  showCosts(costs) {
    const wanted = costs ? [...GUTTERS, COSTS] : GUTTERS;
    if (this.library.getOption('gutters').length !== wanted.length) this.library.setOption('gutters', wanted);
    this.library.operation(() => {
      this.clearCosts();
      for (const [line, cost] of costs ?? []) {
        if (line <= this.library.lineCount()) this.library.setGutterMarker(line - 1, COSTS, costMark(cost));
      }
      this.hasCosts = Boolean(costs?.size);
    });
  }

  /** Draws marks {from, to, name}, steps by line, and by line its tint and what stands at its end. */
  decorate({ marks, steps, tints, ends }) {
    this.library.operation(() => {
      this.clearMarks();
      const place = (at) => this.library.posFromIndex(at);
      for (const { from, to, name } of marks) {
        if (from < to) this.marks.push(this.library.markText(place(from), place(to), { className: name }));
        else this.marks.push(this.library.setBookmark(place(from), { widget: missing(name) }));
      }
      this.hasSteps = steps.size > 0;
      for (const [line, numbers] of steps) {
        if (line <= this.library.lineCount()) this.library.setGutterMarker(line - 1, 'steps', stepMarks(numbers));
      }
      this.decorateLines(tints, ends);
    });
  }

  decorateLines(tints, ends) {
    const drawn = JSON.stringify([[...tints], [...ends], this.text.length]);
    this.lines = new WeakMap();
    for (const line of new Set([...tints.keys(), ...ends.keys()])) {
      const handle = this.library.getLineHandle(line - 1);
      if (handle) this.lines.set(handle, { tint: tints.get(line), end: (ends.get(line) ?? []).join(' ') });
    }
    if (drawn !== this.drawn) this.library.refresh();
    this.drawn = drawn;
  }

  drawLine(line, element) {
    const found = this.lines.get(line), columns = indentOf(line.text, 4) + 2;
    element.style.textIndent = `-${columns}ch`;
    element.style.paddingLeft = `calc(${columns}ch + 4px)`; // the library's own is 4px
    if (found?.tint !== undefined) element.classList.add('tint', `t${found.tint % 8}`);
    if (found?.end) element.dataset.end = found.end;
  }

  /** Colours all words anew, since labels have changed. */
  recolour() {
    this.library.setOption('mode', 'timed');
  }

  /** Lights up a line, from 1, or none; where it `scrolls`, brings it into view. */
  light(line, scrolls = false) {
    if (this.lit) this.library.removeLineClass(this.lit, 'background', 'lit');
    this.lit = line > 0 ? this.library.getLineHandle(line - 1) : null;
    if (!this.lit) return;
    this.library.addLineClass(this.lit, 'background', 'lit');
    if (scrolls) this.library.scrollIntoView({ line: line - 1, ch: 0 }, 40);
  }

  /** The line, from 1, at a height in the window. */
  lineAtHeight(y) {
    return this.library.lineAtHeight(y, 'window') + 1;
  }
}

function costMark({ short, long }) {
  const span = document.createElement('span');
  span.className = 'cost';
  span.textContent = short;
  span.dataset.tip = long;
  return span;
}

function missing(name) {
  const span = document.createElement('span');
  span.className = `${name} missing`;
  span.textContent = ' ';
  return span;
}

/** The numbers of the steps of a line, in the room that there is beside it. */
export function stepsText(numbers) {
  const first = numbers[0], last = numbers[numbers.length - 1];
  if (first === last) return String(first);
  if (last - first === numbers.length - 1) return `${first}–${last}`;
  return numbers.length === 2 ? `${first},${last}` : `${first} …`;
}

function stepMarks(numbers) {
  const box = document.createElement('span');
  box.setAttribute('aria-hidden', 'true');
  box.className = 'step';
  box.textContent = stepsText(numbers.map(({ number }) => number));
  return box;
}
