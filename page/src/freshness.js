// Of which text and settings an answer is, and whether those are the present ones.

import { OWN } from './machine.js';

const PROGRAM = ['program'], ALL = ['program', 'starts', 'observer', 'environment', 'machine', 'budget'];

/** What each answer depends on. */
export const DEPENDS = {
  verdict: PROGRAM, code: PROGRAM, steady: ['program', 'observer'], audit: ALL, leak: ALL, runs: ALL, points: ALL,
  compared: ALL,
};

// The text of a machine matters where it is the one that is chosen.
const partOf = (state, name) => (name !== 'machine' ? state[name] : state.environment === OWN ? state.machine : '');
const isSame = (some, other, name) => partOf(some, name) === partOf(other, name);

/** Whether an answer that was given for `of` holds for what is there now. Where something that is written is none, as a
    number of cycles that is no number, no answer that depends on it is of what is there. */
export function isFresh(name, of, now, faults = {}) {
  if (!of) return false;
  const names = DEPENDS[name];
  if ((faults.budget && names.includes('budget')) || (faults.cell && names.includes('starts'))) return false;
  if (faults.machine && names.includes('machine')) return false;
  return names.every((key) => isSame(of, now, key));
}

const SETTINGS = {
  observer: 'another observer', environment: 'other caches', machine: 'another machine',
  budget: 'another number of cycles',
};

/** Of what an answer is that is not of what is there, in words: `an earlier program`, `other starts`. */
export function ofWhat(of, now) {
  if (of.program !== now.program) return 'an earlier program';
  if (of.starts !== now.starts) return 'earlier starts';
  const setting = Object.keys(SETTINGS).find((name) => !isSame(of, now, name));
  return setting ? SETTINGS[setting] : 'earlier input';
}

/** The sentence about answers that are dimmed. `why` says how far the present ones are. */
export function staleText({ hasAnswers, of, now, why, fault = '' }) {
  const reasons = {
    working: 'The new answer is being worked out.',
    stopped: 'The runs were stopped.',
    refused: 'The program that is here is refused, so no limit holds of it.',
    syntax: 'What is here is not a program.',
    fault,
  };
  const reason = reasons[why] ?? '';
  return hasAnswers ? `${reason} What is dimmed is of ${ofWhat(of, now)}.`.trim() : reason;
}
