// Reads the texts that the tool and the lab print (docs/FORMATS.md). Values stay texts, since they have 64 bits.

const lines = (text) => text.split('\n').slice(0, text.endsWith('\n') ? -1 : undefined);
const place = (text) => {
  const [line, column] = text.split(':').map(Number);
  return { line, column };
};

/** Of one line of a refusal: its kind, what it says, and its place where it has one. */
export function readRefusal(line) {
  const refused = /^refused (\S+) at (\d+:\d+): (\S+) does not flow to (\S+)$/.exec(line);
  if (refused) {
    return { kind: 'refused', rule: refused[1], place: place(refused[2]), from: refused[3], to: refused[4],
      text: line };
  }
  const syntax = /^syntax: (.*?)(?: at (\d+:\d+))?$/.exec(line);
  if (syntax) return { kind: 'syntax', what: syntax[1], place: syntax[2] ? place(syntax[2]) : null, text: line };
  const named = /^(starts|space|disagree|unfinished|too long|read fault|memory|usage|machine)/.exec(line);
  return { kind: named ? named[1] : 'other', place: null, text: line };
}

/** The verdict of `check`: accepted with its counts, or the refusal, and all its lines. */
export function readVerdict(text) {
  const accepted = /^accepted: commands (\d+), mitigates (\d+)$/m.exec(text);
  if (accepted) {
    return { kind: 'accepted', commands: Number(accepted[1]), mitigates: Number(accepted[2]), refusals: [] };
  }
  const refusals = lines(text).map(readRefusal).filter((refusal) => refusal.kind !== 'other');
  return { ...(refusals[0] ?? readRefusal(lines(text)[0] ?? '')), refusals };
}

const EVENT = /^(\S+) = (-?\d+) @(\d+)$/;
const END = /^(end|limit) @(\d+)$/;
const event = (match) => ({ variable: match[1], value: match[2], cycle: Number(match[3]) });

/** A run: its assignments with their cycles, and how and when it ended. */
export function readRun(text) {
  const run = { events: [], mitigations: null, end: null, halted: false };
  for (const line of lines(text)) {
    const end = END.exec(line), assigned = EVENT.exec(line);
    if (assigned) run.events.push(event(assigned));
    else if (end) Object.assign(run, { end: Number(end[2]), halted: end[1] === 'end' });
    else return null;
  }
  return run.end === null ? null : run;
}

const NO_BOUND = /^no bound: /;

/** The report of `audit`, `cut` or the lab's `bound`, or null. On a machine `sharing` says of which kind it is; where
    that is `shared` there is no bound. */
export function readAudit(text) {
  const found = { classes: [], levelsOf: [] };
  for (const line of lines(text)) {
    const bound = /^bound (\d+)\^(\d+)$/.exec(line), run = /^run (\d+) class (\d+)$/.exec(line);
    const level = /^level (\S+) mitigations (\d+)(?: first (\d+) digits (\d+))?$/.exec(line);
    const count = /^(runs|budget|levels|mitigations|ended|halted|distinct|bits) (\d+)$/.exec(line);
    const long = /^(sharp|shared|own) (\d+)$/.exec(line) ?? /^(guess) at most (\d+) times as often$/.exec(line);
    const observer = /^observer (\S+)$/.exec(line),
      tooMuch = /^(sharp|shared|own|bits) \S+ or more$|^guess no limit told$/.test(line);
    const end = /^end (counted|not counted): /.exec(line), machine = /^machine (partitioned|shared)$/.exec(line);
    if (bound) Object.assign(found, { base: Number(bound[1]), exponent: Number(bound[2]) });
    else if (run) found.classes.push(Number(run[2]));
    else if (level) found.levelsOf.push(
      { level: level[1], mitigations: Number(level[2]), first: Number(level[3] ?? 1),
        digits: level[4] && Number(level[4]) });
    else if (count) found[count[1]] = Number(count[2]);
    else if (long) found[long[1]] = BigInt(long[2]);
    else if (observer) [, found.observer] = observer;
    else if (end) found.countsEnd = end[1] === 'counted';
    else if (machine) [, found.sharing] = machine;
    else if (!tooMuch && !NO_BOUND.test(line)) return null;
  }
  return found.runs === undefined || (found.base === undefined && found.sharing !== 'shared') ? null : found;
}

/** The instructions of `compile`: number, name, operand, labels. */
export function readCode(text) {
  return lines(text).map((line) => {
    const [, number, name, operand, read, write] = /^(\d+) (\S+)(?: (.*))? \[(\S+), (\S+)\]$/.exec(line);
    return { number: Number(number), name, operand: operand ?? '', labels: [read, write] };
  });
}

const RUNS_REFUSED = /^refused .*; it runs by its least labels, and no bound holds$/;

/** The lab's timeline: the runs with their mitigations, and a line for each mitigate of the text; or null. Of a refused
    program a line in front says so. */
export function readTimeline(text) {
  const runs = [], mitigates = [], [head, ...rest] = lines(text);
  let open = [];
  for (const line of RUNS_REFUSED.test(head) ? rest : [head, ...rest]) {
    const run = runs.at(-1), assigned = EVENT.exec(line), end = END.exec(line);
    const begin = /^begin #(\d+) (\d+:\d+) level (\S+) estimate (-?\d+) predicts (\d+) misses (\d+) @(\d+)$/.exec(line);
    const ended = /^end #(\d+) (\d+:\d+) level (\S+) worked (\d+) lasts (\d+) misses (\d+) to (\d+) @(\d+)$/.exec(line);
    const total = /^mitigate #(\d+) (\d+:\d+) ended (\d+) shortest (\d+) longest (\d+) missed (\d+) least (\d+)$/.exec(
      line);
    if (/^run \d+$/.test(line)) {
      runs.push({ events: [], mitigations: [], end: null, halted: false });
      open = [];
    } else if (assigned) {
      run.events.push(event(assigned));
    } else if (begin) {
      const made = {
        number: Number(begin[1]), place: begin[2], level: begin[3], estimate: begin[4], predicts: Number(begin[5]),
        misses: Number(begin[6]), begin: Number(begin[7]), worked: null, lasts: null, missesAfter: null, end: null,
        depth: open.length,
      };
      run.mitigations.push(made);
      open.push(made);
    } else if (ended) {
      Object.assign(open.pop(),
        { worked: Number(ended[4]), lasts: Number(ended[5]), missesAfter: Number(ended[7]), end: Number(ended[8]) });
    } else if (end) {
      Object.assign(run, { end: Number(end[2]), halted: end[1] === 'end' });
    } else if (total) {
      const [number, ended_, shortest, longest, missed, least] = [1, 3, 4, 5, 6, 7].map((k) => Number(total[k]));
      mitigates.push({ number, place: total[2], ended: ended_, shortest, longest, missed, least });
    } else {
      return null;
    }
  }
  return runs.length && runs.every((run) => run.end !== null) ? { runs, mitigates } : null;
}

/** The lab's `why`: the refusal and the steps of the chain, each with its place. */
export function readWhy(text) {
  const [first, ...rest] = lines(text);
  const refusal = readRefusal(first ?? '');
  const steps = rest.map((line) => /^(\d+:\d+) (.*)$/.exec(line)).filter(Boolean);
  return { refusal, steps: steps.map((step) => ({ place: place(step[1]), text: step[2] })) };
}

/** The label of a name, as the lab's `why --of` tells it; null where it does not. */
export function readLabel(text, name) {
  const told = /^(\S+) is (\S+)$/.exec(lines(text)[0] ?? '');
  return told && told[1] === name ? told[2] : null;
}

/** What the lab's `why` tells of a text that is no program, behind the first line and the marked one: [{says, words}],
    where `says` is `found`, `expected`, `labels`, `nearest`, or empty for a sentence. */
export function readFault(text) {
  return lines(text).slice(1).filter((line) => !line.startsWith('| ')).map((line) => {
    const told = /^(found|expected|labels|nearest) (.+)$/.exec(line);
    return told ? { says: told[1], words: told[2] } : { says: '', words: line };
  });
}

const FIELD = /^(\S+)=(-?\d+)@(\d+)$/;
const numbers = (match) => match.slice(1).map(Number);

// A number, as a BigInt where it is too great for another one.
const wideNumber = (text) => (Number.isSafeInteger(Number(text)) ? Number(text) : BigInt(text));

// One line of the lab's `leak`, put into what was found; whether it is one.
function leakLine(line, found) {
  const count = /^(runs|budget|distinct) (\d+)$/.exec(line), starts = /^starts (\d+)$/.exec(line);
  const wide = /^(sharp|shared|own) (\d+)$/.exec(line);
  const bound = /^bound (\d+)\^(\d+)$/.exec(line), sizes = /^least (\d+) greatest (\d+)$/.exec(line);
  const bits = /^(min-entropy|shannon) (\d+\.\d+) to (\d+\.\d+)$/.exec(line);
  const right = /^right at first (\d+) of (\d+) before, (\d+) of (\d+) after$/.exec(line);
  const guesses = /^guesses (\d+)\/(\d+) before, (\d+)\/(\d+) after$/.exec(line);
  const part = /^class (\d+) first (\d+)\t(.*)$/.exec(line), observer = /^observer (\S+)$/.exec(line);
  const machine = /^machine (partitioned|shared)$/.exec(line);
  if (count) found[count[1]] = Number(count[2]);
  else if (starts) Object.assign(found, { runs: Number(starts[1]), isSpace: true });
  else if (observer) [, found.observer] = observer;
  else if (bound) [found.base, found.exponent] = numbers(bound);
  else if (wide) found[wide[1]] = BigInt(wide[2]);
  else if (sizes) [found.least, found.greatest] = numbers(sizes);
  else if (bits) found[bits[1] === 'shannon' ? 'shannon' : 'minEntropy'] = bits.slice(2);
  else if (right) found.right = { before: Number(right[1]), after: Number(right[3]) };
  else if (guesses) {
    const [before, ofBefore, after, ofAfter] = guesses.slice(1).map(wideNumber);
    found.guesses = { before: [before, ofBefore], after: [after, ofAfter] };
  } else if (part) {
    const events = part[3] === '-' ? [] : part[3].split(' ').map((text) => event(FIELD.exec(text)));
    found.classes.push({ size: Number(part[1]), first: Number(part[2]), events });
  } else if (machine) [, found.sharing] = machine;
  else return /^(sharp|shared|own) \S+ or more$/.test(line) || NO_BOUND.test(line);
  return true;
}

/** The lab's `leak`, of listed runs or, as `isSpace`, of all starts of a space: its numbers, and of each class of runs
    its size, its first run and what is seen of that; or null. Entropies stay texts, each as two ends between which it
    lies; `sharp`, `shared` and `own` are left out where they are too great. */
export function readLeak(text) {
  const found = { classes: [] };
  if (!lines(text).every((line) => leakLine(line, found))) return null;
  const isWhole = found.minEntropy && found.shannon && found.right && found.guesses;
  return isWhole && found.classes.length === found.distinct ? found : null;
}

const TUNE_HEAD = /^(observer \S+|budget \d+|machine (partitioned|shared)|no bound: .*)$/;

/** The lab's `tune`: the mitigate's number, how many runs there are, and the choices in ascending order, each with the
    last first prediction with which no miss count changes, how many things it tells, and the mean and the last end of
    its runs; or null. */
export function readTune(text) {
  const found = { mark: null, runs: null, choices: [] };
  for (const line of lines(text)) {
    const mark = /^tune #(\d+) alone, the others as written$/.exec(line), runs = /^runs (\d+)$/.exec(line);
    const choice = /^first (\d+) to (\d+) told (\d+) mean (\d+) greatest (\d+)$/.exec(line);
    if (mark) found.mark = Number(mark[1]);
    else if (runs) found.runs = Number(runs[1]);
    else if (choice) {
      const [first, last, told, mean, greatest] = numbers(choice);
      found.choices.push({ first, last, told, mean, greatest });
    } else if (!TUNE_HEAD.test(line)) return null;
  }
  return found.mark === null || found.runs === null ? null : found;
}

/** The lab's `steady`: a yes with how much the observer sees, a no with its reason, place and variable, or neither. */
export function readSteady(text) {
  const [first = '', ...rest] = lines(text);
  const sees = /^sees (\d+) of (\d+) variables$/m.exec(text), observer = /^observer (\S+)$/m.exec(text);
  if (first === 'steady' && sees && observer) {
    return { kind: 'yes', observer: observer[1], sees: Number(sees[1]), of: Number(sees[2]) };
  }
  const no = /^unsteady (.+) at (\d+:\d+): (\S+) does not flow to (\S+)$/.exec(first);
  if (!no) return { kind: 'other', text: first };
  const blamed = /^(\S+) is (declared|inferred) \S+$/.exec(rest[0] ?? '');
  return {
    kind: 'no', reason: no[1], place: place(no[2]), from: no[3], to: no[4], variable: blamed?.[1] ?? null,
    isDeclared: blamed?.[2] === 'declared',
  };
}

/** What the observer sees of runs, as one text a run; two runs look alike exactly where these are the same. */
export function sequence(run) {
  return run.events.filter((assignment) => assignment.isSeen)
    .map((assignment) => `${assignment.variable}=${assignment.value}@${assignment.cycle}`).join(' ');
}

/** The class of each run, from 1, by first appearance of what is seen of it. */
export function classesOf(runs) {
  const kinds = [...new Set(runs.map(sequence))];
  return runs.map((run) => kinds.indexOf(sequence(run)) + 1);
}

/** Marks in each run what the observer sees of it, by the run of the same start that tells the
    observer's part alone. */
export function markSeen(runs, seen) {
  runs.forEach((run, k) => {
    const cycles = new Set(seen[k].events.map((assignment) => assignment.cycle));
    for (const assignment of run.events) assignment.isSeen = cycles.has(assignment.cycle);
  });
  return runs;
}

/** The least number of bits that BASE^EXPONENT fits in: the least B with BASE^EXPONENT <= 2^B. */
export function bitsOf(base, exponent) {
  const greatest = BigInt(base) ** BigInt(exponent) - 1n;
  return greatest === 0n ? 0 : greatest.toString(2).length;
}
