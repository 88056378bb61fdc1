// The text of a program as the page needs it: words to colour, places, and where commands and estimates stand.
// What is right and what is wrong about a program is told by the tool alone.

const KEYWORDS = new Set([
  'labels', 'order', 'var', 'skip', 'if', 'then', 'else', 'while', 'do', 'mitigate', 'sleep',
]);
const PIECES = [
  ['space', '[ \\t\\r\\n]+'],
  ['comment', '\\/\\/[^\\n]*'],
  ['name', '[A-Za-z][A-Za-z0-9_]*'],
  ['number', '[0-9]+'],
  ['sign', ':=|==|!=|<=|>=|[:;,(){}\\[\\]@+\\-*/%<>]'],
  ['bad', '[\\s\\S]'],
];
const PIECE = new RegExp(PIECES.map(([, form]) => `(${form})`).join('|'), 'gu');

const kindOf = (match) => {
  const [kind] = PIECES[match.slice(1).findIndex((part) => part !== undefined)];
  return kind === 'name' && KEYWORDS.has(match[0]) ? 'keyword' : kind;
};

/** The pieces of a text, white space and comments included: {kind, text, at}. */
export function pieces(text) {
  return Array.from(text.matchAll(PIECE), (match) => ({ kind: kindOf(match), text: match[0], at: match.index }));
}

const ONE_PIECE = new RegExp(PIECE.source, 'uy');

/** The piece of a text that begins at a place before its end: {kind, text, at}. */
export function pieceAt(text, at) {
  ONE_PIECE.lastIndex = at;
  const match = ONE_PIECE.exec(text);
  return { kind: kindOf(match), text: match[0], at };
}

/** What is known of the words before the next one: whether a name that follows stands for a label. */
export function freshContext() {
  return { isHeader: false, isDeclaration: false, isMarks: false, before: '', open: [] };
}

/** The same context as another value. */
export function copiedContext(context) {
  return { ...context, open: [...context.open] };
}

/** Takes a word into a context, and gives the role of a name: 'label' where it stands for a label, else 'variable'. */
export function roleInContext(context, { kind, text }) {
  const { before } = context;
  let role;
  if (kind === 'keyword') {
    context.isHeader = text === 'labels' || text === 'order';
    context.isDeclaration = text === 'var';
  } else if (text === ';') {
    context.isHeader = context.isDeclaration = false;
  } else if (text === '(') {
    context.open.push(before === 'mitigate' ? 'mitigate' : '(');
  } else if (text === '[') {
    context.isMarks = before === '@';
    context.open.push('[');
  } else if (text === ')' || text === ']') {
    context.open.pop();
    context.isMarks = false;
  } else if (kind === 'name') {
    const isLevel = before === ',' && context.open.at(-1) === 'mitigate',
      isDeclared = context.isDeclaration && before === ':';
    role = context.isHeader || context.isMarks || isLevel || isDeclared ? 'label' : 'variable';
  }
  context.before = text;
  return role;
}

/** The words of a text. A name has a role: 'label' where it stands for a label, else 'variable'. */
export function words(text) {
  const found = pieces(text).filter((piece) => piece.kind !== 'space' && piece.kind !== 'comment');
  const context = freshContext();
  for (const word of found) {
    const role = roleInContext(context, word);
    if (role) word.role = role;
  }
  return found;
}

const utf8 = new TextEncoder();

/** The place LINE:COLUMN of an offset; columns count bytes from 1, as the tool does. */
export function placeOf(text, at) {
  const begin = text.lastIndexOf('\n', at - 1) + 1;
  const line = text.slice(0, begin).split('\n').length;
  return { line, column: utf8.encode(text.slice(begin, at)).length + 1 };
}

/** Of a text, a function that tells the line of an offset. */
export function lineFinder(text) {
  const begins = [0];
  for (let at = text.indexOf('\n'); at >= 0; at = text.indexOf('\n', at + 1)) begins.push(at + 1);
  return (at) => {
    let low = 0, high = begins.length;
    while (high - low > 1) {
      const middle = (low + high) >> 1;
      if (begins[middle] <= at) low = middle;
      else high = middle;
    }
    return low + 1;
  };
}

/** The offset of a place, at most the end of its line. */
export function offsetOf(text, line, column) {
  let begin = 0;
  for (let k = 1; k < line; k++) {
    const next = text.indexOf('\n', begin);
    if (next < 0) return text.length;
    begin = next + 1;
  }
  let at = begin, bytes = 1;
  while (bytes < column && at < text.length && text[at] !== '\n') {
    const sign = String.fromCodePoint(text.codePointAt(at));
    bytes += utf8.encode(sign).length;
    at += sign.length;
  }
  return at;
}

class Unread extends Error {}

// Goes forward over the words of a text.
class Reader {
  constructor(text) {
    this.words = words(text);
    this.at = 0;
    this.count = 0;
    this.deep = 0;
    this.length = text.length;
  }

  get here() {
    return this.words[this.at] ?? { kind: 'end', text: '', at: this.length };
  }

  get last() {
    const word = this.words[this.at - 1];
    return word ? word.at + word.text.length : 0;
  }

  sees(text) {
    return this.here.text === text && this.here.kind !== 'bad';
  }

  takes(text) {
    if (!this.sees(text)) return false;
    this.at++;
    return true;
  }

  want(text) {
    if (!this.takes(text)) throw new Unread(`no ${text} at ${this.here.at}`);
  }

  kind(kind) {
    const word = this.here;
    if (word.kind !== kind) throw new Unread(`no ${kind} at ${word.at}`);
    this.at++;
    return word;
  }

  // An expression: how many instructions its code has, and where it stands.
  expression() {
    const begin = this.here.at;
    let size = this.row(['+', '-'], () => this.row(['*', '/', '%'], () => this.atom()));
    if (['==', '!=', '<', '<=', '>', '>='].includes(this.here.text)) {
      this.at++;
      size += this.row(['+', '-'], () => this.row(['*', '/', '%'], () => this.atom())) + 1;
    }
    return { size, at: begin, end: this.last };
  }

  row(signs, part) {
    let size = part();
    while (this.here.kind === 'sign' && signs.includes(this.here.text)) {
      this.at++;
      size += part() + 1;
    }
    return size;
  }

  atom() {
    if (++this.deep > 2000) throw new Unread('too deep');
    let size = 1;
    if (this.takes('(')) {
      size = this.expression().size;
      this.want(')');
    } else if (this.here.kind === 'number') {
      this.at++;
    } else {
      this.kind('name');
      if (this.takes('[')) {
        size = this.expression().size + 1;
        this.want(']');
      }
    }
    this.deep--;
    return size;
  }

  marks() {
    if (!this.takes('@')) return null;
    this.want('[');
    const first = this.kind('name').text;
    const second = this.takes(',') ? this.kind('name').text : first;
    this.want(']');
    return [first, second];
  }

  block() {
    this.want('{');
    const inner = this.commands();
    this.want('}');
    return inner;
  }

  commands() {
    const found = [this.command()];
    while (this.takes(';')) found.push(this.command());
    return found;
  }

  command() {
    if (++this.deep > 2000) throw new Unread('too deep');
    const word = this.here, made = { number: this.count++, at: word.at, parts: [], marks: null };
    if (this.takes('skip')) {
      made.form = 'skip';
    } else if (word.kind === 'name') {
      this.at++;
      Object.assign(made, { form: 'assign', name: word.text });
      if (this.takes('[')) {
        made.form = 'put';
        made.index = this.expression();
        this.want(']');
      }
      this.want(':=');
      made.value = this.expression();
    } else if (this.takes('sleep')) {
      Object.assign(made, { form: 'sleep', value: this.expression() });
    } else if (this.takes('if')) {
      Object.assign(made, { form: 'if', value: this.expression(), marks: this.marks() });
      this.want('then');
      made.head = this.last;
      const then = this.block();
      const isWritten = this.takes('else');
      const skip = isWritten ? null
        : { number: this.count++, at: word.at, end: this.last, form: 'skip', parts: [], isAdded: true };
      made.parts = [then, isWritten ? this.block() : [skip]];
    } else if (this.takes('while')) {
      Object.assign(made, { form: 'while', value: this.expression(), marks: this.marks() });
      this.want('do');
      made.head = this.last;
      made.parts = [this.block()];
    } else if (this.takes('mitigate')) {
      this.want('(');
      Object.assign(made, { form: 'mitigate', value: this.expression(), level: null });
      if (this.takes(',')) made.level = this.kind('name').text;
      this.want(')');
      made.head = this.last;
      made.marks = this.marks();
      made.parts = [this.block()];
    } else {
      throw new Unread(`no command at ${word.at}`);
    }
    if (made.parts.length === 0) made.marks = this.marks();
    made.end = this.last;
    made.head ??= made.end;
    this.deep--;
    return made;
  }

  declaration() {
    const { text: name, at } = this.kind('name');
    let length = null, label = null;
    if (this.takes('[')) {
      length = Number(this.kind('number').text);
      this.want(']');
    }
    if (this.takes(':')) label = this.kind('name').text;
    this.want(';');
    return { name, at, length, label };
  }

  program() {
    let labels = ['L', 'H'], pairs = [['L', 'H']];
    if (this.takes('labels')) {
      labels = [this.kind('name').text];
      pairs = [];
      while (this.takes(',')) labels.push(this.kind('name').text);
      this.want(';');
      if (this.takes('order')) {
        do {
          const low = this.kind('name').text;
          this.want('<');
          pairs.push([low, this.kind('name').text]);
        } while (this.takes(','));
        this.want(';');
      }
    }
    const variables = [];
    while (this.takes('var')) variables.push(this.declaration());
    const body = this.commands();
    if (this.here.kind !== 'end') throw new Unread(`more at ${this.here.at}`);
    return { labels, pairs, variables, body };
  }
}

function programIn(text) {
  try {
    return new Reader(text).program();
  } catch (fault) {
    if (fault instanceof Unread) return null;
    throw fault;
  }
}

const KEPT = 2; // texts whose reading is kept: that of the editor, and the same with all labels
const readings = []; // the last one first

/** The program that a text spells, or null where the page can't read it: labels, pairs, variables, body. */
export function readProgram(text) {
  const known = readings.find((reading) => reading.text === text);
  if (known) return known.program;
  const program = programIn(text);
  readings.unshift({ text, program });
  readings.length = Math.min(readings.length, KEPT);
  return program;
}

/** The commands of a body and all their parts, each before its parts, in the order of their numbers. */
export function allCommands(body) {
  return body.flatMap((command) => [command, ...command.parts.flatMap(allCommands)]);
}

/** The mitigates of a program, in the order of the text. */
export function mitigates(program) {
  const found = allCommands(program.body).filter((command) => command.form === 'mitigate');
  return found.map((command, mark) => Object.assign(command, { mark }));
}

/** For each instruction of a program's code, the command that it comes from; null for the last one, HALT. */
export function owners(program) {
  const found = [];
  const add = (count, command) => {
    for (let k = 0; k < count; k++) found.push(command);
  };
  const addCommand = (command) => {
    const size = (command.index?.size ?? 0) + (command.value?.size ?? 0) + 1;
    add(size, command);
    command.parts.forEach((part, k) => {
      part.forEach(addCommand);
      if (command.form === 'if' && k === 0) add(1, command);
    });
    if (command.form === 'while') add(size, command);
    if (command.form === 'mitigate') add(1, command);
  };
  program.body.forEach(addCommand);
  found.push(null);
  return found;
}

/** The text with a number in place of a mitigate's estimate. */
export function withEstimate(text, mitigate, number) {
  return text.slice(0, mitigate.value.at) + number + text.slice(mitigate.value.end);
}

/** The text with commands of one list put into a mitigate of an estimate and a level. */
export function wrapped(text, first, last, estimate, level) {
  const begin = text.lastIndexOf('\n', first.at - 1) + 1;
  const indent = /^[ \t]*$/.test(text.slice(begin, first.at)) ? text.slice(begin, first.at) : '';
  const inner = text.slice(first.at, last.end).replace(/\n/g, '\n  ');
  const made = `mitigate (${estimate}, ${level}) {\n${indent}  ${inner}\n${indent}}`;
  return text.slice(0, first.at) + made + text.slice(last.end);
}
