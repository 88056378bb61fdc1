// The sweep: trying other first predictions in place of one mitigate's estimate, and showing what they tell and cost.

import { choicesNote, choicesTable, choicesText, pointsOf } from './choices.js';
import { drawCommands } from './commands_part.js';
import { drawFreshness } from './freshness_part.js';
import { counted, spaced } from './numbers.js';
import { placeOf, withEstimate } from './language.js';
import { placeText } from './marks.js';
import { changeProgram } from './program_part.js';
import { saveSvg } from './saving.js';
import { $, answeredOf, calls, mitigatesNow, shown, state } from './state.js';
import { isFresh } from './freshness.js';
import { pointOf, tuneOf } from './study.js';
import { halveGap, pointsTable, powerFrom, predictions, sweepPicture, sweepText } from './sweep.js';
import { Stopped } from './tool.js';

const PAUSE = 150; // milliseconds between two drawings of a sweep that goes on

let sweepTurn = 0;

const whichMitigate = () => mitigatesNow()[Number($('sweep-which').value || 0)] ?? null;
const estimateOf = (mitigate) => {
  const text = state.program.slice(mitigate.value.at, mitigate.value.end);
  return /^\d+$/.test(text) && Number(text) < 2 ** 40 ? Number(text) : null;
};

/** Whether there is a sweep to make: all runs have halted, and there is a mitigate. */
export function canSweep() {
  const isCounted = shown.verdict?.kind === 'accepted' && shown.audit?.report && !shown.audit.isCut;
  const hasRuns = isCounted && shown.runs && shown.isAll;
  return Boolean(hasRuns && mitigatesNow().length && isFresh('runs', answeredOf.runs, state));
}

const say = (words) => {
  $('sweep-note').dataset.says = words;
  drawFreshness();
};

const STOP = 'Stop', goText = () => (shown.hasTune ? 'Ask which ones matter' : 'Try predictions');

function endSweep() {
  if ($('sweep').getAttribute('aria-busy') !== 'true') return;
  $('sweep-go').textContent = goText();
  $('sweep').setAttribute('aria-busy', 'false');
}

/** Ends the sweep that goes on; what it has found stays, as of an earlier program. */
export function stopSweep() {
  sweepTurn++;
  calls.sweeper?.stop();
  endSweep();
}

/** Asks which predictions matter, or tries some where the module does not tell that, and draws as they come; nothing
    where there is no sweep to make. */
export async function sweep() {
  stopSweep();
  const mine = ++sweepTurn, isOld = () => mine !== sweepTurn;
  const mitigate = whichMitigate();
  if (!mitigate || !canSweep()) return;
  const current = estimateOf(mitigate), trial = trialOf(mitigate, isOld);
  Object.assign(shown, { points: [], unfinished: 0, isSwept: false, tuned: null });
  answeredOf.points = { ...state };
  $('sweep-go').textContent = STOP;
  $('sweep').setAttribute('aria-busy', 'true');
  let untold = '';
  try {
    const tuned = shown.hasTune ? await tuneOf(calls.sweeper, { ...state }, mitigate) : null;
    if (isOld()) return;
    untold = tuned?.refusal ? UNTOLD(tuned.refusal) : '';
    if (tuned?.choices) showChoices(tuned);
    else await tryPredictions(trial, current, isOld);
    shown.isSwept = !isOld();
  } catch (fault) {
    if (!(fault instanceof Stopped)) $('sweep-text').textContent = `No answer: ${fault.message}`;
  } finally {
    if (!isOld()) {
      endSweep();
      say(shown.tuned ? choicesNote(shown.tuned)
        : untold + (shown.points.length ? pointsText(shown.points.length, current, trial.unfinished.size) : ''));
    }
  }
}

// Why predictions are tried where the lab could tell which ones matter.
const UNTOLD = ({ text }) => (/its estimate is no number$/.test(text)
  ? 'Which ones matter is told of an estimate that is a number alone. ' : `Which ones matter is not told: ${text}. `);

function showChoices(tuned) {
  Object.assign(shown, { tuned, points: pointsOf(tuned.choices) });
  $('sweep-numbers').open = true;
  drawSweep();
  drawCommands();
}

// The points that were tried, and the predictions with which not all runs halt; `point` tries one that is neither.
function trialOf(mitigate, isOld) {
  const now = { ...state }, tried = new Map(), unfinished = new Set();
  const point = async (prediction) => {
    if (tried.has(prediction) || unfinished.has(prediction)) return tried.get(prediction) ?? null;
    const found = await pointOf(calls.sweeper, now, mitigate, prediction);
    if (isOld()) return found;
    if (found) tried.set(prediction, found);
    else unfinished.add(prediction);
    return found;
  };
  return { tried, unfinished, point };
}

// From 1 to the longest run, in steps; then between those where the last difference goes.
async function tryPredictions({ tried, unfinished, point }, current, isOld) {
  const draw = () => {
    Object.assign(shown, { points: [...tried.values()], unfinished: unfinished.size });
    drawSweep();
  };
  const first = (await point(1)) ?? (current && (await point(current)));
  if (isOld()) return;
  if (!first) {
    drawSweep();
    $('sweep-text').textContent =
      'With a first prediction of 1 not all runs halt within the cycles that are asked for.';
    return;
  }
  shown.least = mitigatesNow().length === 1 ? first.least : null;
  const most = powerFrom(first.longest),
    further = [first.least ?? 0, (first.least ?? 0) - 1, current ?? 0].filter((n) => n <= most);
  let last = performance.now();
  for (const prediction of predictions(most, further)) {
    await point(prediction);
    if (isOld()) return;
    if (performance.now() - last > PAUSE) {
      draw();
      say(`${counted(tried.size, 'prediction')} tried.`);
      last = performance.now();
    }
  }
  await halveGap(tried, point, isOld);
  if (!isOld()) draw();
}

function pointsText(count, current, unfinished) {
  const left = unfinished ? `; with ${spaced(unfinished)} more not all runs halt` : '';
  const place = current === null ? 'the estimate' : spaced(current);
  return `The same starts, ${counted(count, 'prediction')} in place of ${place}${left}.`;
}

/** The picture of the points, the sentence below it, and the points as numbers. */
export function drawSweep() {
  const can = canSweep(), { points } = shown;
  const isOld = answeredOf.runs && !isFresh('runs', answeredOf.runs, state); // then it stays where it is
  if (!isOld) $('sweep').hidden = !can && points.length === 0;
  if ($('sweep').hidden) return;
  drawChoice();
  if ($('sweep').getAttribute('aria-busy') !== 'true') $('sweep-go').textContent = goText();
  $('sweep-go').disabled = !can;
  $('sweep-save').hidden = $('sweep-numbers').hidden = points.length === 0;
  // What was told of the text before stays, word for word.
  if (isOld && points.length > 0 && $('sweep-text').textContent) return;
  if (points.length === 0) {
    $('sweep-picture').innerHTML = '';
    $('sweep-text').textContent = shown.tuned ? choicesText([]) : '';
    return;
  }
  const mitigate = whichMitigate(), current = mitigate ? estimateOf(mitigate) : null;
  const width = Math.max($('sweep-picture').clientWidth - 2, 280);
  if (shown.tuned) {
    const { choices } = shown.tuned, most = 2 * powerFrom(Math.max(choices.at(-1).first, current ?? 1));
    $('sweep-picture').innerHTML = sweepPicture(points, { width, current, most });
    $('sweep-text').textContent = choicesText(choices, current);
    $('sweep-table').innerHTML = choicesTable(choices, current);
    return;
  }
  $('sweep-picture').innerHTML = sweepPicture(points, { width, current });
  $('sweep-text').textContent = sweepText(points, shown.least, current, shown.unfinished);
  $('sweep-table').innerHTML = pointsTable(points);
}

// Which mitigate, where there are several.
function drawChoice() {
  const list = mitigatesNow(), choice = $('sweep-which');
  $('sweep-which-field').hidden = list.length < 2;
  const placeName = (mitigate) => placeText(placeOf(state.program, mitigate.at));
  const html = list.map((mitigate, k) => `<option value="${k}">mitigate at ${placeName(mitigate)}</option>`).join('');
  if (choice.innerHTML === html) return;
  const before = choice.value;
  choice.innerHTML = html;
  if (Number(before) < list.length) choice.value = before || '0';
}

/** What a person does with the sweep. */
export function listenSweep() {
  const take = (prediction) => {
    const mitigate = whichMitigate();
    if (!mitigate) return;
    changeProgram(withEstimate(state.program, mitigate, prediction));
  };
  $('sweep-go').addEventListener('click', () => ($('sweep-go').textContent === STOP ? stopSweep() : sweep()));
  $('sweep-which').addEventListener('change', () => sweep());
  $('sweep-save').addEventListener('click', () => saveSvg($('sweep-picture'), 'sweep.svg'));
  $('sweep-table').addEventListener('click', (event) => {
    if (event.target.dataset.take) take(event.target.dataset.take);
  });
  $('sweep-picture').addEventListener('click', (event) => {
    const point = event.target.closest('.point');
    if (point) take(point.dataset.prediction);
  });
}
