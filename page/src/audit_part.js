// What was found: the sentence, the numbers, and the words behind them; and the observers that there may be.

import { auditBoxes, auditWords } from './audit_text.js';
import { escaped } from './colours.js';
import { findingText, isLeaking } from './finding.js';
import { isFresh } from './freshness.js';
import { $, answeredOf, faults, shown, state } from './state.js';
import { isOnlyRefused } from './steady_part.js';

/** The numbers with what they mean, or why there are none. */
export function drawAudit() {
  const { audit, labels } = shown;
  $('audit').innerHTML = audit?.report || audit?.space ? auditBoxes(audit) : '';
  $('audit-text').innerHTML = audit ? auditWords(audit, labels, answeredOf.audit ?? state) : '';
  $('words').classList.toggle('wordless', !audit);
  $('finding').classList.toggle('leaks', isLeaking(audit));
  drawSentence();
}

/** The sentence that says what was found. */
export function drawSentence() {
  const runs = isFresh('runs', answeredOf.runs, state, faults) ? shown.runs : null;
  const text = findingText({ ...shown, runs, observer: state.observer });
  if (text) $('sentence').innerHTML = text;
  $('finding').classList.toggle('no-leak', isOnlyRefused());
}

/** The labels that an observer may have; where the chosen one is none of them any more, the first one is chosen. */
export function drawObservers() {
  const { names } = shown.labels, box = $('observer');
  if (!names.includes(state.observer)) [state.observer] = names;
  if (box.dataset.names !== names.join(' ')) {
    box.innerHTML = names.map((name) => `<option>${escaped(name)}</option>`).join('');
    box.dataset.names = names.join(' ');
  }
  box.value = state.observer;
}
