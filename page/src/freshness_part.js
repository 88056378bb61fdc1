// Dims what is of another text or of other settings than those that are there, and says so.

import { isFresh, ofWhat, staleText } from './freshness.js';
import { $, answeredOf, faults, shown, state } from './state.js';

// The elements that show each answer.
const SHOWN_IN = {
  code: ['code'],
  steady: ['steady-says'],
  audit: ['audit', 'words'],
  leak: ['leak-shown'],
  compared: ['machine-shown'],
  runs: ['lanes', 'lane-says', 'step-says', 'step-state', 'time-legend', 'lane-pages'],
  points: ['sweep-picture', 'sweep-text', 'sweep-numbers'],
};

let why = '';

/** Says how far the answer to what is there is: 'working', 'stopped', 'refused', 'syntax', 'fault', or '' where it is
    there. */
export function setProgress(next) {
  why = next;
  drawFreshness();
}

const fresh = (name) => isFresh(name, answeredOf[name], state, faults);
const isStale = (name) => Boolean(answeredOf[name]) && !fresh(name);

/** Dims what is of another text, and says so; to be called with each change of what is there and of
    what was answered. */
export function drawFreshness() {
  for (const [name, ids] of Object.entries(SHOWN_IN)) {
    for (const id of ids) $(id).classList.toggle('stale', isStale(name));
  }
  const hasStarts = answeredOf.runs && !fresh('runs');
  $('starts-table').classList.toggle('seen-stale', Boolean(hasStarts));
  const isOfSteady = shown.verdict?.kind === 'refused' && isStale('steady');
  for (const id of ['verdict', 'verdict-steady']) {
    $(id).classList.toggle('stale', isStale('verdict') || isOfSteady);
  }
  $('why').classList.toggle('stale', isStale('verdict'));
  $('mend').hidden = !fresh('verdict');
  // no step is gone of a run that is not of what is there
  for (const id of ['step-on', 'step-back']) $(id).disabled ||= isStale('runs');
  const { verdict } = shown, isOfVerdict = verdict && verdict.kind !== 'accepted';
  const isOfNow = fresh('verdict') && (isOfVerdict ? !isOfSteady : fresh('audit'));
  $('sentence').classList.toggle('stale', !isOfNow);
  const stale = ['audit', 'runs', 'leak', 'steady'].filter(isStale), of = answeredOf[stale[0]];
  const fault = faults.budget || faults.cell || faults.machine;
  const text = staleText({ hasAnswers: stale.length > 0, of, now: state, why, fault });
  if ($('freshness').textContent !== text) $('freshness').textContent = text;
  $('time-note').classList.toggle('stale', false);
  noteOf($('sweep-note'), 'points');
  noteOf($('leak-note'), 'leak');
  noteOf($('machine-note'), 'compared');
}

// The words above a part, and of what it is where that is another text.
function noteOf(element, name) {
  const text = isStale(name) ? `Of ${ofWhat(answeredOf[name], state)}.` : element.dataset.says ?? '';
  if (element.textContent !== text) element.textContent = text;
}

/** Tells those who do not see the page what the answer is, where it is not covered. */
export function announce(isCovered) {
  const words = isCovered ? '' : [$('sentence').textContent, $('freshness').textContent].filter(Boolean).join(' ');
  if ($('announce').textContent !== words) $('announce').textContent = words;
}
