// Tasks that a teacher makes of any program: what stands in a link beside the program, read and written.

import { readGoal } from './goals.js';

const LONGEST = { title: 120, says: 4000, ask: 1000, tells: 4000, option: 400 }, MOST_OPTIONS = 8;

const isText = (value, most) => typeof value === 'string' && value.length <= most;

function readGuess(value) {
  if (typeof value !== 'object' || value === null) return null;
  const { ask, options, right, tells } = value;
  if (!isText(ask, LONGEST.ask) || !ask || !isText(tells, LONGEST.tells) || !Array.isArray(options)) return null;
  if (options.length < 2 || options.length > MOST_OPTIONS) return null;
  if (!options.every((option) => isText(option, LONGEST.option) && option)) return null;
  return Number.isInteger(right) && right >= 0 && right < options.length ? { ask, options, right, tells } : null;
}

/** A task as it may stand in a link: {title, says, goal, guess}, of which `goal` or `guess` may be
    null and not both; null
    where it is none. */
export function readTask(value) {
  if (typeof value !== 'object' || value === null) return null;
  const { title, says } = value, goal = readGoal(value.goal), guess = readGuess(value.guess);
  if (!isText(title, LONGEST.title) || !isText(says, LONGEST.says) || (!goal && !guess)) return null;
  return { title, says, goal, guess };
}

/** A task as a lesson of one step, which begins with the program and the starts of `given`. */
export function taskCourse(task, given) {
  const step = { ...given, title: task.title || 'A task', text: [], guess: task.guess, look: 'program' };
  return { name: 'Task', steps: [{ ...step, task: task.goal ? { says: task.says, goal: task.goal } : null }] };
}

// The answers of a question, one a line, the right one with a star before it.
function answersOf(text) {
  const lines = text.split('\n').map((line) => line.trim()).filter(Boolean);
  const right = lines.findIndex((line) => line.startsWith('*'));
  return { options: lines.map((line) => line.replace(/^\*\s*/, '')), right,
    stars: lines.filter((line) => line.startsWith('*')).length };
}

/** The task that a form asks for, {task}, or what is missing in it, {fault}. `goals` has the numbers
    and `true` by name. */
export function taskOfForm({ title, says, goals, ask, answers, tells }) {
  const wrong = Object.entries(goals).find(([name, value]) => readGoal({ [name]: value }) === null);
  if (wrong) return { fault: 'A number of a goal is none: it is 1 or greater.' };
  const goal = readGoal(goals);
  let guess = null;
  if (ask.trim()) {
    const { options, right, stars } = answersOf(answers);
    if (options.length < 2) return { fault: 'A question has two answers or more, one a line.' };
    if (stars !== 1) return { fault: 'One answer, the right one, has a star before it.' };
    guess = { ask: ask.trim(), options, right, tells: tells.trim() };
  }
  if (!goal && !guess) return { fault: 'A task has a goal, or a question.' };
  if (goal && !says.trim()) return { fault: 'What is to be done is not written yet.' };
  const task = readTask({ title: title.trim(), says: says.trim(), goal, guess });
  return task ? { task } : { fault: 'A text is too long.' };
}
