// The page: what is loaded into it, its settings, and its beginning.

import { ask, askCompared, askSteady, changed } from './asking.js';
import { drawAudit, drawObservers } from './audit_part.js';
import { listenCode } from './code_part.js';
import { escaped } from './colours.js';
import { drawCommands, listenCommands } from './commands_part.js';
import { listenCosts } from './costs_part.js';
import { DATA, startModule } from './data.js';
import { writtenLabels } from './decorations.js';
import { examplesOf } from './examples.js';
import { drawNotice, drawWayBack, listenFiles } from './files_part.js';
import { drawFreshness } from './freshness_part.js';
import { drawLeak, listenLeak } from './leak_part.js';
import { closeLesson, listenLesson, openTask } from './lesson_part.js';
import { linkOf, stateOf } from './link.js';
import { drawMachine, listenMachine, noteMachineFault } from './machine_part.js';
import { listenProgram, loadProgram, sayOfExample } from './program_part.js';
import { drawStarts, listenStarts } from './starts_part.js';
import { $, answeredOf, calls, faults, shown, state } from './state.js';
import { drawSteady, listenSteady } from './steady_part.js';
import { listenSteps } from './steps_part.js';
import { knowsTune } from './study.js';
import { drawSweep, listenSweep } from './sweep_part.js';
import { readTask } from './tasks.js';
import { listenTeach } from './teach_part.js';
import { drawTime, listenTime, redraw } from './time_part.js';
import { listenTerms } from './terms_part.js';
import { listenTips } from './tips.js';
import { drawNoModule, listenVerdict } from './verdict_part.js';
import { keptWork, noteLoaded, noteTask, putAside, takeAside, taskNow } from './work.js';

const EXAMPLES = examplesOf(DATA), USUAL = {
  observer: 'L', environment: 'part', machine: '', budget: '1000000',
};
const MOST_CYCLES = 2 ** 40;

// Puts a program, its starts and settings in place of what is there, which is put aside where it is a person's own.
function load(next, { isOwn = false, isLesson = false, isBack = false, example = 'own', says = '' } = {}) {
  const isAside = !isBack && putAside();
  if (!isLesson) closeLesson();
  noteLoaded(next, { isOwn, isLesson });
  $('example').value = example;
  sayOfExample(says);
  Object.assign(state, USUAL, { starts: next.starts });
  for (const name of Object.keys(USUAL)) state[name] = next[name] ?? USUAL[name];
  loadProgram(next.program);
  $('toml').value = state.starts;
  $('budget').value = state.budget;
  setFault('');
  faults.cell = '';
  noteMachineFault(null);
  for (const name of Object.keys(answeredOf)) delete answeredOf[name];
  Object.assign(shown, {
    points: [], isSwept: false, tuned: null, audit: null, leak: null, runs: null, mitigates: null, verdict: null,
    steps: [], told: [], steady: null, wantsSteady: false, code: null, isOwnCode: false, codeText: '',
    compared: null, mostRuns: undefined,
  });
  shown.labels = writtenLabels(state.program);
  drawObservers();
  drawAudit();
  drawTime();
  drawSteady();
  drawLeak();
  drawMachine();
  drawStarts();
  drawSweep();
  drawNotice(isAside ? 'Your program was put aside.' : '');
  changed({ now: true });
}

function loadExample(number) {
  const { says, ...next } = EXAMPLES[number];
  load(next, { example: String(number), says });
}

// Puts back the own work that was put aside; own work that is there is put aside in its place.
function goBack() {
  const aside = takeAside();
  if (aside) load(aside, { isOwn: true, isBack: true });
}

async function fromLink() {
  const next = await stateOf(location.hash);
  if (next) load(next);
  if (next?.task) beginTask(next.task, next);
  return next !== null;
}

// Opens a task of what is on the page, which began with `given`.
function beginTask(task, given) {
  const { program, starts } = given,
    settings = Object.fromEntries(Object.keys(USUAL).map((name) => [name, given[name]]));
  noteTask(task, { program, starts, ...settings });
  openTask(task, { program, starts, ...settings });
}

// The task that was kept with work, where it is one.
function keptTask({ ofTask }) {
  const task = readTask(ofTask?.task), given = ofTask?.given;
  return task && typeof given?.program === 'string' && typeof given.starts === 'string' ? { task, given } : null;
}

async function copyLink() {
  const link = await linkOf(state, taskNow());
  history.replaceState(null, '', link);
  const button = $('copy');
  try {
    await navigator.clipboard.writeText(location.href);
    button.textContent = 'Link copied';
  } catch {
    button.textContent = 'Link is in the address';
  }
  setTimeout(() => { button.textContent = 'Copy link'; }, 2500);
}

function setObserver() {
  state.observer = $('observer').value;
  drawStarts();
  changed({ now: true });
}

function setFault(text) {
  faults.budget = text;
  $('budget').setAttribute('aria-invalid', String(text !== ''));
  $('budget-fault').textContent = text;
}

function setBudget() {
  const plain = $('budget').value.replace(/[\s_\u202f']/g, ''), number = Number(plain);
  const isRight = /^\d{1,13}$/.test(plain) && number >= 1 && number <= MOST_CYCLES;
  setFault(isRight ? '' : 'The number of cycles is a number from 1 to 1\u202f099\u202f511\u202f627\u202f776.');
  if (isRight) state.budget = String(number);
  changed();
}

function nextTheme() {
  const next = { undefined: 'light', light: 'dark', dark: undefined }[document.documentElement.dataset.theme];
  if (next) document.documentElement.dataset.theme = next;
  else delete document.documentElement.dataset.theme;
  $('theme').textContent = `Colours: ${next ?? 'auto'}`;
  $('theme').setAttribute('aria-label', `Colours: ${next ?? 'as the system'}`);
}

function listenSettings() {
  $('example').addEventListener('change', () => {
    const { value } = $('example');
    if (value === 'own') goBack();
    else loadExample(Number(value));
  });
  $('observer').addEventListener('change', setObserver);
  $('budget').addEventListener('input', setBudget);
  $('stop').addEventListener('click', () => calls.tool.stop());
  $('copy').addEventListener('click', copyLink);
  $('theme').addEventListener('click', nextTheme);
  window.addEventListener('hashchange', fromLink);
}

function listenWidth() {
  let width = innerWidth;
  window.addEventListener('resize', () => {
    if (innerWidth === width) return;
    width = innerWidth;
    redraw();
    drawSweep();
  });
}

function listen() {
  listenProgram(changed);
  listenSettings();
  listenVerdict();
  listenStarts(changed);
  listenTime(ask);
  listenSteps(ask);
  listenSteady(askSteady);
  listenLeak();
  listenCode(ask);
  listenCosts(ask);
  listenSweep();
  listenMachine(changed, askCompared);
  listenCommands();
  listenFiles(load, goBack);
  listenLesson(load);
  listenTeach((task) => beginTask(task, { ...state }));
  listenTerms();
  listenTips();
  listenWidth();
}

// What is there at first: what a link says, or what was kept of the last visit, or the first example.
async function firstWork() {
  const kept = keptWork();
  if (kept) {
    load(kept, { isOwn: kept.isOwn === true, example: kept.example ?? 'own', says: kept.says ?? '' });
    const worked = keptTask(kept);
    if (worked) beginTask(worked.task, worked.given);
  }
  const isLinked = await fromLink();
  if (!isLinked && !kept) loadExample(0);
}

async function begin() {
  const options = EXAMPLES.map((example, k) => `<option value="${k}">${escaped(example.name)}</option>`);
  $('example').innerHTML = `<option value="own">your own</option>${options.join('')}`;
  listen();
  await firstWork();
  drawWayBack();
  drawFreshness();
  drawCommands();
  try {
    [calls.tool, calls.sweeper] = await startModule();
  } catch (fault) {
    drawNoModule(fault.message);
    return;
  }
  shown.hasTune = await knowsTune(calls.tool);
  document.documentElement.dataset.ready = calls.tool.programs.join(' ');
  drawSteady();
  drawLeak();
  drawMachine();
  ask();
}

begin();
