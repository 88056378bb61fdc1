// Files: new, open, save; and the work that something else came in place of.

import { commandsNow } from './commands_part.js';
import { isFresh } from './freshness.js';
import { readFileText, jsonOf } from './saved.js';
import { saveText } from './saving.js';
import { $, answeredOf, calls, faults, shown, state } from './state.js';
import { MACHINE, PROGRAM, STARTS } from './commands.js';
import { hasAside } from './work.js';

const EMPTY = { program: 'var l : L;\nvar h : H;\n\nl := 1\n', starts: '[[run]]\nmemory = { h = 0 }\n' };

/** A note at the page's foot; where there is own work aside, with the way back. */
export function drawNotice(text) {
  $('notice').hidden = !text;
  $('notice-text').textContent = text;
  $('notice-back').hidden = !hasAside();
  drawWayBack();
}

/** Whether there is work to go back to. */
export function drawWayBack() {
  $('file-back').disabled = !hasAside();
}

const answers = () => {
  const fresh = (name, value) => (isFresh(name, answeredOf[name], state, faults) ? value : null);
  const { verdict, steady, audit, leak, compared, runs, mitigates, points, tuned } = shown;
  return {
    state, verdict: fresh('verdict', verdict), steady: fresh('steady', steady), audit: fresh('audit', audit),
    leak: fresh('leak', leak), runs: fresh('runs', runs), mitigates: fresh('runs', mitigates),
    points: fresh('points', tuned ? [] : points), tuned: fresh('points', tuned), compared: fresh('compared', compared),
  };
};

async function saveLines() {
  const parts = [];
  for (const { program, words, line, files } of commandsNow()) {
    const { status, text } = await calls.tool.call(program, words, files);
    parts.push(`$ ${line}\n${text}(status ${status})\n`);
  }
  saveText(parts.join('\n'), 'lines.txt');
}

async function openFiles(files, load) {
  let next = {};
  for (const file of files) {
    const read = readFileText(file.name, await file.text());
    if (!read) drawNotice(`${file.name} holds nothing that can be opened here.`);
    next = { ...next, ...read };
  }
  const isSome = ['program', 'starts', 'machine'].some((name) => next[name] !== undefined);
  if (isSome) load({ ...state, ...next }, { isOwn: true });
}

/** What a person does with files. `load` puts a program and its starts in place of what is there;
    `goBack` puts back what
    was put aside. */
export function listenFiles(load, goBack) {
  const press = (id, action) => $(id).addEventListener('click', () => {
    $('file-menu').open = false;
    action();
  });
  press('file-new', () => load({ ...EMPTY }, { isOwn: true }));
  press('file-open', () => $('file-chosen').click());
  press('file-back', goBack);
  press('file-save', () => saveText(state.program, PROGRAM));
  press('starts-save', () => saveText(state.starts, STARTS));
  press('machine-save', () => saveText($('machine-text').value, MACHINE));
  press('lines-save', () => saveLines().catch(() => {}));
  press('json-save', () => saveText(jsonOf(answers()), 'answers.json', 'application/json'));
  $('file-chosen').addEventListener('change', ({ target }) => {
    openFiles([...target.files], load);
    target.value = '';
  });
  $('notice-back').addEventListener('click', goBack);
  $('notice-close').addEventListener('click', () => drawNotice(''));
  document.addEventListener('click', (event) => {
    if (!event.target.closest('#file-menu')) $('file-menu').open = false;
  });
  $('file-menu').addEventListener('keydown', (event) => {
    if (event.key !== 'Escape') return;
    $('file-menu').open = false;
    $('file-menu').querySelector('summary').focus();
  });
}
