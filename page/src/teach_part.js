// A form that makes a task of what is on the page, and a link that hands it on.

import { linkOf } from './link.js';
import { $, state } from './state.js';
import { taskOfForm } from './tasks.js';

const field = (name) => $(`teach-${name}`);
const GOAL = '[data-goal]';

function goalsNow() {
  const goals = {};
  for (const box of field('goals').querySelectorAll(GOAL)) {
    const number = field('goals').querySelector(`[data-number="${box.dataset.goal}"]`);
    if (box.checked) goals[box.dataset.goal] = number ? Number(number.value) : true;
  }
  return goals;
}

function taskNow() {
  const [title, says, ask, answers, tells] =
    ['title-text', 'says', 'ask', 'answers', 'tells'].map((name) => field(name).value);
  const { task = null, fault = '' } = taskOfForm({ title, says, goals: goalsNow(), ask, answers, tells });
  field('fault').textContent = fault;
  return task;
}

async function copyLink() {
  const task = taskNow();
  if (!task) return;
  const link = new URL(await linkOf(state, task), location.href).href;
  field('link').hidden = false;
  field('link').value = link;
  field('link').select();
  try {
    await navigator.clipboard.writeText(link);
    field('told').textContent = 'The link is copied. It holds the task, the program, the starts and the settings.';
  } catch {
    field('told').textContent =
      'The link stands here, and is chosen. It holds the task, the program, the starts and the settings.';
  }
}

/** What a teacher does with the form. `begin` opens a task of what is on the page, as who gets the link sees it. */
export function listenTeach(begin) {
  const close = () => {
    $('teach').hidden = true;
    $('file-menu').querySelector('summary').focus();
  };
  $('file-task').addEventListener('click', () => {
    $('file-menu').open = false;
    $('teach').hidden = false;
    field('told').textContent = field('fault').textContent = '';
    field('link').hidden = true;
    field('title-text').focus();
    $('teach').scrollIntoView({ block: 'nearest' });
  });
  field('copy').addEventListener('click', copyLink);
  field('try').addEventListener('click', () => {
    const task = taskNow();
    if (!task) return;
    $('teach').hidden = true;
    begin(task);
  });
  field('close').addEventListener('click', close);
  field('goals').addEventListener('input', ({ target }) => {
    if (target.dataset.number) field('goals').querySelector(`[data-goal="${target.dataset.number}"]`).checked = true;
  });
}
