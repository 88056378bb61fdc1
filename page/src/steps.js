// A run, step by step, as far as the lab's timeline tells it: its assignments, the begins and ends of its mitigations,
// and its end, each with what is so then. What an instruction cost, and what caches hold, it does not tell.

import { assignedOnce } from './line_costs.js';
import { spaced } from './numbers.js';

const lineOfPlace = (place) => Number(place.split(':')[0]);

/** The steps of a run of a program's text, in order: {cycle, kind, line} with the assignment or the mitigation that it
    is. `line` is null where the timeline tells none, as of a variable that is assigned on several lines. */
export function stepsOf(text, run) {
  const once = assignedOnce(text), nameOf = ({ variable }) => variable.replace(/\[.*$/, '');
  const assigned = run.events.map((event) =>
    ({ cycle: event.cycle, kind: 'assign', line: once.get(nameOf(event)) ?? null, event }));
  const mitigated = (run.mitigations ?? []).flatMap((mitigation) => {
    const line = lineOfPlace(mitigation.place), begin = { cycle: mitigation.begin, kind: 'begin', line, mitigation };
    return mitigation.end === null ? [begin] : [begin, { cycle: mitigation.end, kind: 'end', line, mitigation }];
  });
  const last = { cycle: run.end, kind: run.halted ? 'halt' : 'limit', line: null };
  // each step is an instruction's end, so no two of them have one cycle but for what ends the list
  return [...[...assigned, ...mitigated].sort((some, other) => some.cycle - other.cycle), last];
}

/** What is so after the steps up to one, from 0: {misses, open, values}, by level, in order and by name. */
export function stateAfter(steps, number) {
  const misses = new Map(), values = new Map(), open = [];
  for (const { kind, event, mitigation } of steps.slice(0, number + 1)) {
    if (kind === 'assign') values.set(event.variable, event.value);
    if (kind === 'begin') {
      misses.set(mitigation.level, mitigation.misses);
      open.push(mitigation);
    }
    if (kind === 'end') {
      misses.set(mitigation.level, mitigation.missesAfter);
      open.splice(open.indexOf(mitigation), 1);
    }
  }
  return { misses, open, values };
}

const KINDS = {
  assign: ({ event }) => `${event.variable} = ${event.value}`,
  begin: ({ mitigation: { level, place, predicts } }) =>
    `mitigate at ${place}, level ${level}, begins and predicts ${spaced(predicts)}`,
  end: ({ mitigation: { level, place, worked, begin, end } }) =>
    `mitigate at ${place}, level ${level}, ends: worked ${spaced(worked)}, waited ${spaced(end - begin - worked)}`,
  halt: () => 'the run ends',
  limit: () => 'the greatest cycle is reached',
};

const MOST_VALUES = 12; // variables that are told, the last ones that were assigned

/** A step in words, with what is so after it. */
export function stepText(steps, number, run) {
  const step = steps[number], { misses, open, values } = stateAfter(steps, number);
  const place = `step ${spaced(number + 1)} of ${spaced(steps.length)}`;
  const head = `Run ${spaced(run)}, ${place}, cycle ${spaced(step.cycle)}:`;
  const counts = [...misses].map(([level, count]) => `${level} ${count}`).join(', ');
  const ends = open.map(({ place, begin, predicts }) => `${place} until ${spaced(begin + predicts)}`).join(', ');
  const told = [...values].slice(-MOST_VALUES).map(([name, value]) => `${name} = ${value}`).join(', ');
  return `${head} ${KINDS[step.kind](step)}.${counts ? ` Misses: ${counts}.` : ''}`
    + `${ends ? ` Predicted: ${ends}.` : ''}${told ? ` Values: ${told}.` : ''}`;
}
