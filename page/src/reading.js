// A run instruction by instruction, by the rules of docs/MACHINE.md over the code that the tool compiled. The tool
// tells of a run its assignments, its mitigations and its end; what stands between these is the page's own reading, and
// is shown only where all that the tool tells is the same.

import { Caches } from './caches.js';

/** The longest run that is read, in instructions. */
export const MOST_READ = 50000;

const CODE_BYTES = 4, DATA_FROM = 2 ** 20, DATA_BYTES = 8;
const wrapped = (value) => BigInt.asIntN(64, value), truth = (is) => (is ? 1n : 0n);

const APPLY = {
  '+': (x, y) => wrapped(x + y),
  '-': (x, y) => wrapped(x - y),
  '*': (x, y) => wrapped(x * y),
  '/': (x, y) => (y === 0n ? 0n : wrapped(x / y)),
  '%': (x, y) => (y === 0n ? x : wrapped(x % y)),
  '==': (x, y) => truth(x === y),
  '!=': (x, y) => truth(x !== y),
  '<': (x, y) => truth(x < y),
  '<=': (x, y) => truth(x <= y),
  '>': (x, y) => truth(x > y),
  '>=': (x, y) => truth(x >= y),
};

const isShort = (x) => x >= -32768n && x <= 32767n;

function operatorCost(sign, x, y) {
  if (sign === '*') return isShort(x) && isShort(y) ? 1 : 4;
  return sign === '/' || sign === '%' ? 16 : 0;
}

// Where each variable stands among all of them, elements counted, with its length, and the name of each place.
function layoutOf(variables) {
  const of = new Map(), names = [];
  for (const { name, length } of variables) {
    of.set(name, { first: names.length, length });
    for (let k = 0; k < (length ?? 1); k++) names.push(length === null ? name : `${name}[${k}]`);
  }
  return { of, names };
}

/** A machine at a start, which goes on by `step`. `about` has the instructions of the code, the program as it is read,
    the hardware, the start, and the greatest cycle. */
export class Machine {
  constructor({ code, program, hardware, start, budget }) {
    Object.assign(this, { code, budget, place: 0, clock: 0, stack: [], open: [], misses: new Map(), last: null });
    Object.assign(this, { events: [], mitigations: [], ending: null });
    this.layout = layoutOf(program.variables);
    this.memory = this.layout.names.map(() => 0n);
    for (const [name, value] of start.memory) {
      [value].flat().forEach((part, k) => { this.memory[this.layout.of.get(name).first + k] = part; });
    }
    this.caches = new Caches(hardware, { names: program.labels, pairs: program.pairs });
    for (const touch of start.touch) {
      this.caches.touch(touch.get('place'), touch.get('label'), Number(touch.get('address')));
    }
  }

  /** One instruction; whether there was one that ends by the greatest cycle. `last` tells what it cost. */
  step() {
    if (this.ending) return false;
    const number = this.place, { name, operand, labels: [er, ew] } = this.code[number], from = this.clock;
    const fetched = this.caches.access('code', CODE_BYTES * number, er, ew);
    this.last = { number, from, fetched, touched: [], more: 0, waited: 0 };
    this.spend(1, ...fetched.map(({ cost }) => cost));
    this.place++;
    const write = this[name](operand, er, ew);
    if (this.clock > this.budget) {
      this.ending = { end: from, halted: false };
      return false;
    }
    write?.();
    this.last.to = this.clock;
    return true;
  }

  spend(...cycles) {
    for (const part of cycles) this.clock += part;
  }

  // The place of a variable, or of the element that an index chooses.
  indexOf(name, index = 0n) {
    const { first, length } = this.layout.of.get(name), many = BigInt(length ?? 1);
    return first + Number(((index % many) + many) % many);
  }

  touchDatum(index, er, ew) {
    this.last.touched = this.caches.access('data', DATA_FROM + DATA_BYTES * index, er, ew);
    this.last.index = index;
    this.spend(...this.last.touched.map(({ cost }) => cost));
    return index;
  }

  PUSH(operand) {
    this.stack.push(BigInt(operand));
  }

  LOAD(name, er, ew) {
    this.stack.push(this.memory[this.touchDatum(this.indexOf(name), er, ew)]);
  }

  LOADX(name, er, ew) {
    this.stack.push(this.memory[this.touchDatum(this.indexOf(name, this.stack.pop()), er, ew)]);
  }

  STORE(name, er, ew) {
    return this.written(this.touchDatum(this.indexOf(name), er, ew), this.stack.pop());
  }

  STOREX(name, er, ew) {
    const value = this.stack.pop();
    return this.written(this.touchDatum(this.indexOf(name, this.stack.pop()), er, ew), value);
  }

  // What an assignment does where it ends in time.
  written(index, value) {
    return () => {
      this.memory[index] = value;
      this.events.push({ variable: this.layout.names[index], value: String(value), cycle: this.clock });
    };
  }

  OP(sign) {
    const y = this.stack.pop(), x = this.stack.pop();
    this.last.more = operatorCost(sign, x, y);
    this.spend(this.last.more);
    this.stack.push(APPLY[sign](x, y));
  }

  BRZ(to) {
    if (this.stack.pop() === 0n) this.place = Number(to);
  }

  BRNZ(to) {
    if (this.stack.pop() !== 0n) this.place = Number(to);
  }

  JMP(to) {
    this.place = Number(to);
  }

  SLEEP() {
    const asked = this.stack.pop();
    this.last.waited = asked > 0n ? Number(asked) : 0;
    this.spend(this.last.waited);
  }

  MITB(operand) {
    const [level, mark] = operand.split(' '), estimate = this.stack.pop();
    return () => {
      const misses = this.misses.get(level) ?? 0, made = { number: Number(mark), level, estimate, misses };
      this.misses.set(level, misses);
      this.mitigations.push(Object.assign(made, { begin: this.clock, worked: null, missesAfter: null, end: null }));
      this.open.push(made);
    };
  }

  MITE() {
    const made = this.open.at(-1);
    if (!made) return null;
    const worked = this.clock - made.begin;
    let count = this.misses.get(made.level);
    while (predicted(made.estimate, count) <= worked) count++;
    this.last.waited = predicted(made.estimate, count) - worked;
    this.spend(this.last.waited);
    return () => {
      this.open.pop();
      this.misses.set(made.level, count);
      Object.assign(made, { worked, missesAfter: count, end: this.clock });
    };
  }

  NOP() {}

  HALT() {
    return () => { this.ending = { end: this.clock, halted: true }; };
  }
}

/** What a mitigation of an estimate predicts after so many misses. */
export const predicted = (estimate, misses) => Number(estimate > 1n ? estimate : 1n) * 2 ** misses;

const isMiss = ({ isHit }) => !isHit;

/** A run that is read to its end: {machine, ends, costs}, with the clock after each instruction, and by the number of
    an instruction {times, cycles, waited, looked, missed}. Null where it has more instructions than `most`. */
export function readRunBy(about, most = MOST_READ) {
  const machine = new Machine(about), ends = [];
  const costs = about.code.map(() => ({ times: 0, cycles: 0, waited: 0, looked: 0, missed: {} }));
  while (machine.step()) {
    if (ends.length === most) return null;
    const { number, from, to, waited, fetched, touched } = machine.last, cost = costs[number];
    ends.push(to);
    cost.times++;
    cost.cycles += to - from - waited;
    cost.waited += waited;
    cost.looked += fetched.length + touched.length;
    for (const { place } of [...fetched, ...touched].filter(isMiss)) cost.missed[place] = (cost.missed[place] ?? 0) + 1;
  }
  return { machine, ends, costs };
}

const sameList = (some, others, keys) => some.length === others.length
  && some.every((part, k) => keys.every((key) => String(part[key]) === String(others[k][key])));

/** Whether a reading has all that the tool tells of the run: each assignment and each mitigation with their cycles, and
    the end. */
export function agrees({ machine }, run) {
  const { events, mitigations, ending } = machine;
  return ending.end === run.end && ending.halted === run.halted
    && sameList(events, run.events, ['variable', 'value', 'cycle'])
    && sameList(mitigations, run.mitigations ?? [],
      ['number', 'level', 'estimate', 'misses', 'begin', 'worked', 'missesAfter', 'end']);
}

/** The machine after so many instructions of a run. */
export function machineAfter(about, count) {
  const machine = new Machine(about);
  for (let k = 0; k < count; k++) machine.step();
  return machine;
}
