// The code of a program that the rules refuse, which the tool does not compile, by the layout of docs/MACHINE.md and by
// labels that the tool tells. tests/own_code.test.js sets it beside the tool's code of all that is accepted, and the
// runs by it beside those that the tool tells of what is refused.

import { belowOf } from './caches.js';
import { mitigates, words } from './language.js';

/** Of a program's labels, the least label to which some of them flow; the lowest one of none. */
export function joiner({ labels: names, pairs }) {
  const below = belowOf({ names, pairs });
  return (...some) => names.filter((name) => some.every((part) => below.get(name).has(part)))
    .reduce((least, name) => (below.get(name).size < below.get(least).size ? name : least));
}

const COMPARISONS = ['==', '!=', '<', '<=', '>', '>='], SUMS = ['+', '-'], PRODUCTS = ['*', '/', '%'];

// Goes over the words of an expression, whose code it makes, with the names that it reads, and those in its indices.
class ExpressionReader {
  constructor(text) {
    Object.assign(this, { words: words(text), at: 0, code: [], reads: [], inIndices: [], depth: 0 });
    this.comparison();
  }

  takes(signs) {
    const sign = this.words[this.at]?.text;
    if (!signs.includes(sign)) return null;
    this.at++;
    return sign;
  }

  push(name, operand) {
    this.code.push({ name, operand });
  }

  row(signs, part) {
    part();
    for (let sign = this.takes(signs); sign; sign = this.takes(signs)) {
      part();
      this.push('OP', sign);
    }
  }

  sum() {
    this.row(SUMS, () => this.row(PRODUCTS, () => this.atom()));
  }

  comparison() {
    this.sum();
    const sign = this.takes(COMPARISONS);
    if (!sign) return;
    this.sum();
    this.push('OP', sign);
  }

  atom() {
    const { kind, text } = this.words[this.at++];
    if (kind === 'number') {
      this.push('PUSH', String(BigInt(text)));
    } else if (text === '(') {
      this.comparison();
      this.at++;
    } else {
      this.read(text);
    }
  }

  read(name) {
    this.reads.push(name);
    if (this.depth > 0) this.inIndices.push(name);
    if (!this.takes(['['])) {
      this.push('LOAD', name);
      return;
    }
    this.depth++;
    this.comparison();
    this.depth--;
    this.at++;
    this.push('LOADX', name);
  }
}

const NONE = { code: [], reads: [], inIndices: [] };

// Puts the code of commands into a list, one after the other.
class Lowering {
  constructor(program, text, labels) {
    Object.assign(this, { text, labels, code: [], join: joiner(program) });
  }

  expression(place) {
    return place ? new ExpressionReader(this.text.slice(place.at, place.end)) : NONE;
  }

  labelOf(names) {
    return this.join(...names.map((name) => this.labels.of.get(name)));
  }

  // Adds an instruction, and gives it back, so that the place to which it goes can follow.
  add(name, operand, labels) {
    const made = { number: this.code.length, name, operand, labels };
    this.code.push(made);
    return made;
  }

  addAll(parts, labels) {
    for (const { name, operand } of parts) this.add(name, operand, labels);
  }

  goesHere(branch) {
    branch.operand = String(this.code.length);
  }

  list(commands, pc) {
    for (const command of commands) this.command(command, pc);
  }

  command(command, pc) {
    const index = this.expression(command.index), value = this.expression(command.value);
    const own = this.join(pc, this.labelOf([...index.reads, ...value.inIndices]));
    const labels = command.marks ?? [own, own], guard = this.labelOf(value.reads);
    this.addAll(index.code, labels);
    this.addAll(value.code, labels);
    const about = { labels, raised: labels.map((label) => this.join(label, guard)), pc, inner: this.join(pc, guard) };
    this[command.form](command, about, value);
  }

  skip(command, { labels }) {
    this.add('NOP', '', labels);
  }

  assign({ name }, { labels }) {
    this.add('STORE', name, labels);
  }

  put({ name }, { labels }) {
    this.add('STOREX', name, labels);
  }

  sleep(command, { labels }) {
    this.add('SLEEP', '', labels);
  }

  if({ parts: [then, otherwise] }, { labels, raised, inner }) {
    const test = this.add('BRZ', '', labels);
    this.list(then, inner);
    const leave = this.add('JMP', '', raised);
    this.goesHere(test);
    this.list(otherwise, inner);
    this.goesHere(leave);
  }

  while({ parts: [body] }, { labels, raised, inner }, value) {
    const test = this.add('BRZ', '', labels), first = String(this.code.length);
    this.list(body, inner);
    this.addAll(value.code, raised);
    this.add('BRNZ', first, raised);
    this.goesHere(test);
  }

  mitigate({ mark, level, parts: [body] }, { labels, pc }) {
    this.add('MITB', `${level ?? this.labels.levels[mark]} ${mark}`, labels);
    this.list(body, pc);
    this.add('MITE', '', labels);
  }
}

/** The code of a program, with `labels`: `of` its variables and arrays, by name, and the `levels` of its mitigates, by
    their numbers, where these are left out. */
export function ownCode(program, text, labels) {
  mitigates(program); // numbers them
  const lowering = new Lowering(program, text, labels), bottom = lowering.join();
  lowering.list(program.body, bottom);
  lowering.add('HALT', '', [bottom, bottom]);
  return lowering.code;
}
