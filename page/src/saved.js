// What is on the page as files.

import { OWN } from './machine.js';

/** All that is on the page, as JSON. Numbers that may have more than 53 bits are texts. Answers that are not of the
    program and settings that are there are left out. */
export function jsonOf({ state, ...answers }) {
  const plain = (_, value) => (typeof value === 'bigint' ? String(value) : value);
  const { program, starts, observer, environment, machine, budget } = state;
  const settings = { observer, environment, ...(machine ? { machine } : {}), budget: Number(budget) };
  return `${JSON.stringify({ program, starts, ...settings, ...answers }, plain, 2)}\n`;
}

// A machine file says how the machine is shared, and a start file has no such key.
const isMachine = (text) => /^\s*sharing\s*=/m.test(text);

/** What a file holds: {program}, {starts}, a machine with its choice, or all with settings from what was saved as JSON;
    null where it is nothing. */
export function readFileText(name, text) {
  if (/\.toml$/i.test(name)) return isMachine(text) ? { environment: OWN, machine: text } : { starts: text };
  if (!/\.json$/i.test(name)) return { program: text };
  try {
    const { program, starts, observer, environment, machine, budget } = JSON.parse(text);
    if (typeof program !== 'string' || typeof starts !== 'string') return null;
    const hasMachine = typeof machine === 'string', settings = hasMachine ? { machine } : {};
    const isKnown = ['flat', 'part', 'part2', ...(hasMachine ? [OWN] : [])].includes(environment);
    if (typeof observer === 'string') settings.observer = observer;
    if (isKnown) settings.environment = environment;
    if (Number.isSafeInteger(budget)) settings.budget = String(budget);
    return { program, starts, ...settings };
  } catch {
    return null;
  }
}
