// A lesson, or a task, a step at a time. It goes to the part of the page that a step speaks of; where a step asks for a
// guess, what the tool says is covered until there is one; where it asks for something to be done, it says how far that
// is. What a person changes in a step is there again when they come back to it.

import { escaped } from './colours.js';
import { DATA } from './data.js';
import { writtenLabels } from './decorations.js';
import { isFresh } from './freshness.js';
import { checksOf, checksText, factsOf } from './goals.js';
import { lessonsOf } from './lesson.js';
import { $, answeredOf, faults, shown, state } from './state.js';
import { taskCourse } from './tasks.js';
import { noteTask } from './work.js';

const LESSONS = lessonsOf(DATA);
const PARTS = {
  program: 'the program', time: 'the timeline', answer: 'what is seen, and when', starts: 'the starts',
  sweep: 'the predictions', steady: 'whether it is constant in time', leak: 'what these runs tell',
  machine: 'the machine',
};

let course = null, number = 0, mustGo = false, isDone = false;
let works = [], guesses = []; // of each step of the course: what was on the page when it was left, and the guess

const stepNow = () => (course && !$('lesson').hidden ? course.steps[number] : null);
const isGuessing = () => Boolean(stepNow()?.guess) && guesses[number] === undefined;

// Goes to the part that the step speaks of, below the lesson's own box, where it is not in view.
function goToPart(isAsked) {
  const part = $(stepNow().look);
  if (part.closest('[hidden]')) return;
  const box = $('lesson').getBoundingClientRect(), isAtFoot = getComputedStyle($('lesson')).position === 'fixed';
  const top = isAtFoot ? 8 : $('lesson').offsetHeight + 16, foot = isAtFoot ? box.top : innerHeight;
  const at = part.getBoundingClientRect();
  if (!isAsked && at.top >= top && at.bottom <= foot) return;
  part.style.scrollMarginTop = `${top}px`;
  part.scrollIntoView({ block: 'start' });
}

function guessText({ ask, options, right, tells }) {
  const chosen = guesses[number], isAnswered = chosen !== undefined;
  const answerText = (option, k) => {
    const isRight = isAnswered && k === right, mark = isRight ? '✓ ' : '';
    return `<button type="button" data-guess="${k}" aria-pressed="${k === chosen}"${isAnswered ? ' disabled' : ''}`
      + `${isRight ? ' class="true"' : ''}>${mark}${escaped(option)}</button>`;
  };
  const says = chosen === right ? 'You guessed right.' : chosen < 0 ? '' : 'You guessed something else.';
  const told = isAnswered ? `<p>${says} ${escaped(tells)}</p>` : '';
  const show = isAnswered ? '' : '<button type="button" class="link" data-guess="-1">Show me</button>';
  const list = options.map(answerText).join('');
  return `<p><b>Guess first:</b> ${escaped(ask)}</p><p class="guesses">${list}${show}</p>${told}`;
}

function drawGuess() {
  const step = stepNow();
  $('lesson-guess').innerHTML = step?.guess ? guessText(step.guess) : '';
  document.body.classList.toggle('guessing', isGuessing());
}

function drawTask() {
  const step = stepNow();
  if (!step?.task || isGuessing()) {
    $('lesson-task').innerHTML = '';
    return;
  }
  const given = { program: step.program, starts: step.starts, labels: writtenLabels(step.program).of };
  const fresh = (name) => isFresh(name, answeredOf[name], state, faults);
  const checks = checksOf(step.task.goal, factsOf({ state, shown, fresh, given }));
  isDone = checks.every((check) => check.isDone);
  const done = isDone ? ' <b>Done.</b>' : '';
  const text = `<p><b>Your task:</b> ${escaped(step.task.says)}${done}</p>${checksText(checks)}`;
  if ($('lesson-task').innerHTML !== text) $('lesson-task').innerHTML = text;
  $('lesson').classList.toggle('done', isDone);
}

/** Something was answered: how far the task is, and the part that the step speaks of, where it was not there before. */
export function drawLesson() {
  if (!stepNow()) return;
  drawTask();
  if (mustGo) goToPart(false);
  mustGo = false;
}

/** Whether what the tool says is covered, since a guess is asked for. */
export const isCovered = () => isGuessing();

function drawHead() {
  const { steps } = course, step = steps[number], isLast = number === steps.length - 1, isTask = course.name === 'Task';
  const next = LESSONS[LESSONS.indexOf(course) + 1];
  $('lesson-title').textContent = `${isTask ? 'Task' : course.name}: ${step.title}`;
  $('lesson-step').textContent = steps.length > 1 ? `step ${number + 1} of ${steps.length}` : '';
  $('lesson-text').innerHTML = step.text.map((text) => `<p>${escaped(text)}</p>`).join('');
  $('lesson-back').disabled = number === 0;
  $('lesson-which-field').hidden = $('lesson-back').hidden = $('lesson-next').hidden = isTask;
  $('lesson-next').textContent = !isLast ? 'Next step' : next ? `Next lesson: ${next.name}` : 'End the lesson';
  $('lesson').dataset.look = step.look;
  $('lesson-go').textContent = `Go to ${PARTS[step.look]}`;
  $('lesson-which').value = String(Math.max(LESSONS.indexOf(course), 0));
}

function openStep(next, load) {
  number = next;
  isDone = false;
  $('lesson').hidden = false;
  $('lesson').classList.remove('done');
  const step = course.steps[number];
  drawHead();
  drawGuess();
  $('lesson-task').innerHTML = '';
  if (load) load(works[number] ?? step, { isLesson: true });
  for (const section of document.querySelectorAll('section')) {
    section.classList.toggle('look', section.contains($(step.look)));
  }
  mustGo = true;
  goToPart(false);
  $('lesson').scrollTop = 0;
}

function openCourse(next, load) {
  course = next;
  if (load) noteTask(null);
  works = [];
  guesses = [];
  openStep(0, load);
}

/** Opens a task of a program and its starts, which are on the page already. */
export function openTask(task, given) {
  openCourse(taskCourse(task, given), null);
}

/** Closes the lesson, or the task, and what it covered. */
export function closeLesson() {
  $('lesson').hidden = true;
  noteTask(null);
  for (const section of document.querySelectorAll('section.look')) section.classList.remove('look');
  document.body.classList.remove('guessing');
}

function guess(chosen) {
  guesses[number] = chosen;
  drawGuess();
  drawTask();
  $('lesson-guess').lastElementChild.scrollIntoView({ block: 'nearest' }); // what is told then, within the lesson's box
  goToPart(false); // which has grown
  $('lesson-guess').focus({ preventScroll: true });
}

/** The buttons of the lesson. `load` puts a step's program and starts into the page. */
export function listenLesson(load) {
  $('lesson-which').innerHTML = LESSONS.map(({ name }, k) => `<option value="${k}">${escaped(name)}</option>`).join('');
  $('lesson-open').addEventListener('click', () => {
    openCourse(LESSONS[0], load);
    $('lesson-next').focus({ preventScroll: true });
  });
  const go = (next) => {
    works[number] = { ...state };
    openStep(next, load);
  };
  const next = () => {
    const after = LESSONS[LESSONS.indexOf(course) + 1];
    if (number < course.steps.length - 1) go(number + 1);
    else if (after) openCourse(after, load);
    else leave();
  };
  const leave = () => {
    closeLesson();
    $('lesson-open').focus();
  };
  $('lesson-which').addEventListener('change', ({ target }) => openCourse(LESSONS[Number(target.value)], load));
  $('lesson-close').addEventListener('click', leave);
  $('lesson-back').addEventListener('click', () => go(Math.max(number - 1, 0)));
  $('lesson-next').addEventListener('click', next);
  $('lesson-go').addEventListener('click', () => goToPart(true));
  $('lesson-again').addEventListener('click', () => load(course.steps[number], { isLesson: true }));
  $('lesson-guess').addEventListener('click', ({ target }) => {
    if (target.dataset.guess !== undefined) guess(Number(target.dataset.guess));
  });
}
