// What is asked of the tool, and when: the verdict, then the audit and the runs, anew after each change.

import { readCode } from './answers.js';
import { drawAudit, drawObservers, drawSentence } from './audit_part.js';
import { drawCode } from './code_part.js';
import { drawCommands } from './commands_part.js';
import { drawCosts } from './costs_part.js';
import { labelsOf, writtenLabels } from './decorations.js';
import { isFresh } from './freshness.js';
import { announce, drawFreshness, setProgress } from './freshness_part.js';
import { drawLeak } from './leak_part.js';
import { readProgram } from './language.js';
import { drawLesson, isCovered } from './lesson_part.js';
import { banksNow, drawMachine, noteMachineFault } from './machine_part.js';
import { drawProgram } from './program_part.js';
import { followRuns, progressText } from './progress.js';
import { wantsCode } from './reading_part.js';
import { isSpace, listed, readSpace } from './space.js';
import { readStarts } from './starts.js';
import { drawStarts } from './starts_part.js';
import { $, answeredOf, calls, faults, shown, state } from './state.js';
import { drawSteady } from './steady_part.js';
import {
  auditOf, chainOf, codeOf, comparedOf, completedBy, faultOf, leakOf, machineFaultOf, mendOf, refusedCodeOf,
  refusedRunsOf, runsOf, sharpOf, spaceOf, steadyOf, verdictOf,
} from './study.js';
import { canSweep, drawSweep, stopSweep, sweep } from './sweep_part.js';
import { drawTime } from './time_part.js';
import { Stopped } from './tool.js';
import { drawNoAnswer, drawVerdict, offerMend } from './verdict_part.js';
import { keepWork } from './work.js';

const PAUSE = 250; // milliseconds of rest before a change is answered
const QUICK_SWEEP = 4000; // milliseconds that a sweep may take to begin by itself
const QUICK_BOTH = 3000; // milliseconds that runs may take to be made on both machines by themselves
const MOST_FIRSTS = 100; // classes of a space whose first starts are drawn
const SWEEP_CALLS = 90, TUNE_CALLS = 8; // how often as long as the runs a sweep takes, about, and `tune`
const SHOWN_AFTER = 400, FOLLOWED_AFTER = 1000; // milliseconds until work is told, and until its runs are followed

// What is worked out of an accepted program, in order.
const STEPS = ['the verdict', 'the count', 'the sharp count', 'the timeline', 'what the runs tell', 'both machines'];
const stepOf = (name) => ({ says: name, number: STEPS.indexOf(name) + 1, of: STEPS.length });

let turn = 0, waiting = null, step = stepOf(STEPS[0]);

/** Something was changed: what is asked now is stopped, and all is asked anew after a rest, or `now`. */
export function changed({ now = false } = {}) {
  turn++;
  // it no longer tells what is here
  if (location.hash && !now) history.replaceState(null, '', location.href.split('#')[0]);
  clearTimeout(waiting);
  calls.tool?.stop();
  stopSweep();
  if ($('answer').getAttribute('aria-busy') !== 'true') $('answer').setAttribute('aria-busy', 'true');
  setProgress('working');
  waiting = setTimeout(ask, now ? 0 : PAUSE);
}

/** Asks for all that the page shows, and draws it as it comes. */
export async function ask() {
  const { tool } = calls;
  keepWork();
  if (!tool) return;
  const mine = ++turn, begun = performance.now(), asked = { ...state };
  const isOld = () => mine !== turn;
  tool.stop();
  step = stepOf('the verdict');
  busy(begun, asked);
  try {
    const verdict = await verdictOf(tool, asked);
    if (isOld()) return;
    const isAccepted = verdict.kind === 'accepted';
    const completed = isAccepted ? await completedBy(tool, asked) : null;
    const chain = verdict.kind === 'refused' ? await chainOf(tool, asked) : null;
    const told = verdict.kind === 'syntax' ? await faultOf(tool, asked) : [];
    if (isOld()) return;
    shown.labels = (completed && labelsOf(completed)) ?? writtenLabels(asked.program);
    drawObservers();
    asked.observer = state.observer;
    const steady = await steadyAsked(asked, verdict), fault = await machineFaultOf(tool, asked);
    if (isOld()) return;
    noteMachineFault(fault);
    Object.assign(shown, { verdict, told, steps: chain?.steps ?? [] });
    answeredOf.verdict = asked;
    if (steady) noteSteady(steady, asked);
    drawProgram();
    drawVerdict();
    drawSteady();
    drawStarts();
    drawCommands();
    if (wantsCode() && verdict.kind !== 'refused') await askCode(asked, isOld);
    if (isOld()) return;
    drawMachine();
    if (isAccepted && !faults.budget && !faults.cell && !faults.machine) await askRuns(asked, isOld);
    else await askMend(asked, isOld);
  } catch (fault) {
    if (!isOld()) drawStopped(fault);
  } finally {
    if (!isOld()) idle();
  }
}

// Whether a program is constant in time is asked where it is refused, and from then on.
async function steadyAsked(asked, { kind }) {
  if (kind === 'refused') shown.wantsSteady = true;
  return shown.wantsSteady && (kind === 'refused' || kind === 'accepted') ? steadyOf(calls.tool, asked) : null;
}

function noteSteady(steady, asked) {
  shown.steady = steady;
  answeredOf.steady = asked;
}

/** Asks whether the program that is there is constant in time, also where it is accepted. */
export async function askSteady() {
  const asked = { ...state };
  shown.wantsSteady = true;
  try {
    const steady = await steadyOf(calls.tool, asked);
    if (!steady || asked.program !== state.program || asked.observer !== state.observer) return;
    noteSteady(steady, asked);
    drawProgram();
    drawSteady();
    drawCommands();
  } catch (fault) {
    if (!(fault instanceof Stopped)) throw fault;
  }
}

// Of a refused program the tool compiles none, and the page makes it by the least labels.
async function askCode(asked, isOld) {
  if (isFresh('code', answeredOf.code, asked)) return;
  const { tool } = calls, { status, text } = await codeOf(tool, asked), isCompiled = status === 0;
  const own = !isCompiled && shown.verdict.kind === 'refused' ? await refusedCodeOf(tool, asked) : null;
  if (isOld()) return;
  Object.assign(shown, { code: isCompiled ? readCode(text) : own, isOwnCode: own !== null, codeText: text });
  answeredOf.code = asked;
  drawCode();
}

async function askRuns(asked, isOld) {
  const { tool } = calls;
  drawFreshness();
  if (isSpace(asked.starts)) {
    await askSpace(asked, isOld);
    return;
  }
  step = stepOf('the count');
  const audit = await auditOf(tool, asked);
  if (isOld()) return;
  step = stepOf('the sharp count');
  const sharp = audit.report && !audit.isCut && audit.sharp === undefined ? await sharpOf(tool, asked) : null;
  if (isOld()) return;
  shown.audit = { sharp, ...audit };
  answeredOf.audit = asked;
  drawAudit();
  drawFreshness();
  step = stepOf('the timeline');
  const begun = performance.now();
  const told = await runsOf(tool, asked, shown.mostRuns);
  if (isOld()) return;
  const took = performance.now() - begun, { runs = null, mitigates = null, isAll = true } = told;
  if (runs && audit.report) {
    audit.report.classes.forEach((number, k) => runs[k] && Object.assign(runs[k], { class: number }));
  }
  noteRuns({ runs, mitigates, isAll }, asked);
  const hasPoints = shown.isSwept && isFresh('points', answeredOf.points, asked);
  if (!hasPoints) forgetPoints();
  setProgress('');
  drawStarts();
  drawTime();
  drawCosts();
  drawSweep();
  await askLeak(asked, isOld);
  if (isOld()) return;
  if (took < QUICK_BOTH || isFresh('compared', answeredOf.compared, asked)) await askBoth(asked, isOld);
  if (isOld()) return;
  endFollowing();
  if (!hasPoints && canSweep() && took * (shown.hasTune ? TUNE_CALLS : SWEEP_CALLS) < QUICK_SWEEP) sweep();
}

// The runs of the first starts of the classes of a space, each of its class.
async function firstRuns(asked, { classes }) {
  const space = readSpace(asked.starts), variables = readProgram(asked.program)?.variables ?? [];
  const text = listed(space, variables, classes.slice(0, MOST_FIRSTS).map(({ first }) => first));
  const { runs = null, mitigates = null } = await runsOf(calls.tool, { ...asked, starts: text });
  return { runs, mitigates, listed: readStarts(text), isAll: classes.length <= MOST_FIRSTS };
}

// All starts of a space are counted; of each class the first one's run is drawn.
async function askSpace(asked, isOld) {
  step = stepOf('what the runs tell');
  const told = await spaceOf(calls.tool, asked);
  if (isOld()) return;
  Object.assign(shown, { audit: told, leak: told.space ?? null });
  answeredOf.audit = answeredOf.leak = asked;
  const firsts = told.space ? await firstRuns(asked, told.space) : { runs: null };
  if (isOld()) return;
  noteRuns({ mitigates: null, isAll: true, ...firsts }, asked);
  setProgress('');
  const draws = [drawAudit, drawStarts, drawTime, drawCosts, drawSweep, drawLeak, drawMachine, drawCommands];
  for (const draw of draws) draw();
}

function noteRuns({ runs, mitigates, isAll, listed: rows = null }, asked) {
  Object.assign(shown, { runs, mitigates, isAll, listed: rows, view: null, page: 0, lane: -1 });
  answeredOf.runs = asked;
}

function forgetPoints() {
  Object.assign(shown, { points: [], isSwept: false, tuned: null });
  delete answeredOf.points;
}

// What the runs tell, exactly, where all of them have halted.
async function askLeak(asked, isOld) {
  step = stepOf('what the runs tell');
  const { audit } = shown, leak = audit.report && !audit.isCut ? await leakOf(calls.tool, asked) : null;
  if (isOld()) return;
  shown.leak = leak;
  answeredOf.leak = asked;
  drawLeak();
}

// What the runs tell with partitions, and where all labels share the caches.
async function askBoth(asked, isOld) {
  const banks = banksNow(), { audit } = shown;
  step = stepOf('both machines');
  const isCounted = (audit?.report && !audit.isCut) || audit?.space;
  const compared = banks !== null && isCounted ? await comparedOf(calls.tool, asked, banks) : null;
  if (isOld()) return;
  shown.compared = compared;
  answeredOf.compared = asked;
  drawMachine();
  drawCommands();
}

/** Asks for both machines, also where that takes long. */
export async function askCompared() {
  const mine = turn, asked = { ...state };
  $('machine-go').disabled = true;
  try {
    await askBoth(asked, () => mine !== turn);
  } catch (fault) {
    if (!(fault instanceof Stopped)) throw fault;
  } finally {
    drawMachine();
  }
}

// The runs of a refused program, by its least labels. What counts and limits tell stays, as of an earlier program.
async function askRefusedRuns(asked, isOld) {
  step = stepOf('the timeline');
  const told = await refusedRunsOf(calls.tool, asked);
  if (isOld() || !told) return;
  noteRuns(told, asked);
  drawStarts();
}

// A refused program, and one that is none: what was answered before stays, as of an earlier program.
async function askMend(asked, isOld) {
  const { kind } = shown.verdict, isFault = faults.budget || faults.cell || faults.machine;
  setProgress(kind === 'accepted' ? 'fault' : kind === 'refused' ? 'refused' : 'syntax');
  if (kind === 'refused' && !isFault) await askRefusedRuns(asked, isOld);
  if (!isOld() && kind === 'refused' && wantsCode()) await askCode(asked, isOld);
  if (isOld()) return;
  drawCosts();
  drawSentence();
  drawTime();
  drawSweep();
  drawLeak();
  const found = kind === 'refused' ? await mendOf(calls.tool, asked, shown.verdict) : null;
  if (!isOld() && found) offerMend(found);
}

let ticking = null, isFollowing = false;

function busy(begun, asked) {
  endFollowing();
  clearInterval(ticking);
  $('answer').setAttribute('aria-busy', 'true');
  let told = null;
  const tell = (next) => { told = next; };
  ticking = setInterval(() => {
    const took = performance.now() - begun;
    $('working').hidden = took < SHOWN_AFTER;
    $('working-text').textContent = progressText(took / 1000, step, told);
    if (took < FOLLOWED_AFTER || isFollowing || told || step.says === STEPS[0]) return;
    isFollowing = true;
    followRuns(calls.sweeper, asked, tell).catch(() => {});
  }, 100);
}

// The runs are followed by the worker of the sweep, which has nothing to do until the runs are there.
function endFollowing() {
  if (isFollowing) calls.sweeper.stop();
  isFollowing = false;
}

function idle() {
  endFollowing();
  clearInterval(ticking);
  $('answer').setAttribute('aria-busy', 'false');
  $('working').hidden = true;
  drawLesson();
  announce(isCovered());
}

function drawStopped(fault) {
  const isStop = fault instanceof Stopped;
  if (!isStop || answeredOf.verdict?.program !== state.program) drawNoAnswer(isStop ? null : fault.message);
  setProgress('stopped');
  drawTime();
  drawSweep();
}
