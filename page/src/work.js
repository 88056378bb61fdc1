// What a person wrote is kept in this browser: what is on the page, and the own work that something
// else came in place of.

import { isOwnMachine } from './machine_part.js';
import { $, state } from './state.js';

const WORK = 'mitigate.work', ASIDE = 'mitigate.aside', MOST_ASIDE = 10;
const KEYS = ['program', 'starts', 'observer', 'environment', 'budget'];

// what was loaded, whose it is, and of which task, as {task, given}, it is
const loaded = { isOwn: false, isLesson: false, program: '', starts: '', machine: '', ofTask: null };

const isWork = (work) => Boolean(work) && KEYS.every((key) => typeof work[key] === 'string');

function read(name) {
  try {
    return JSON.parse(localStorage.getItem(name) ?? 'null');
  } catch {
    return null;
  }
}

function write(name, value) {
  try {
    localStorage.setItem(name, JSON.stringify(value));
  } catch {
    // a browser that keeps nothing, or has no more room: the work is on the page, and in what is saved as a file
  }
}

const isChanged = () => state.program !== loaded.program || state.starts !== loaded.starts
  || (state.machine !== loaded.machine && isOwnMachine(state.machine));

/** Keeps what is on the page. */
export function keepWork() {
  const isOwn = loaded.isOwn || isChanged();
  const { ofTask } = loaded;
  write(WORK, { ...state, isOwn, example: $('example').value, says: $('example-says').textContent, ofTask });
}

/** What was kept when the page was left, or null. */
export function keptWork() {
  const work = read(WORK);
  return isWork(work) ? work : null;
}

const allAside = () => {
  const works = read(ASIDE);
  return Array.isArray(works) ? works.filter(isWork) : [];
};

/** Whether there is own work that something else came in place of. */
export const hasAside = () => allAside().length > 0;

/** What was loaded, and whose it is: a person's own, a step of the lesson, or neither. */
export function noteLoaded(next, { isOwn, isLesson }) {
  const { program, starts, machine = '' } = next;
  Object.assign(loaded, { isOwn, isLesson, program, starts, machine });
}

/** That what is on the page is worked on for a task that began with `given`; null where for none. */
export function noteTask(task, given = null) {
  loaded.ofTask = task && { task, given };
}

/** The task that is worked on, or null. */
export const taskNow = () => loaded.ofTask?.task ?? null;

// The own work on the page as it is, or null where it is none; a step of the lesson keeps its own.
const ownWork = () => (!loaded.isLesson && (loaded.isOwn || isChanged()) ? { ...state } : null);

/** Puts the own work on the page aside, as the last one, and tells whether there was such. */
export function putAside() {
  const own = ownWork();
  if (own) write(ASIDE, [...allAside(), own].slice(-MOST_ASIDE));
  return own !== null;
}

/** The last work that was put aside, which is taken from there; own work on the page comes first in
    its place. Null where
    there is none. */
export function takeAside() {
  const works = allAside(), last = works.pop() ?? null, own = ownWork();
  if (last) write(ASIDE, own ? [own, ...works] : works);
  return last;
}
