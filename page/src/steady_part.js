// Whether the program is constant in time for the chosen observer: asked of refused programs, and of accepted ones
// where a person wants it.

import { drawFreshness } from './freshness_part.js';
import { placeOf } from './language.js';
import { $, calls, programNow, shown, state } from './state.js';
import { isSteady, steadyText } from './steady_text.js';

// Where a variable is declared, in the program that is there.
function declarationOf(name) {
  const found = programNow()?.variables.find((variable) => variable.name === name);
  return found ? placeOf(state.program, found.at) : null;
}

/** Whether what is there is refused and yet constant in time: that is no leak, and must not look like one. */
export const isOnlyRefused = () => shown.verdict?.kind === 'refused' && isSteady(shown.steady);

/** The answer, or what can be asked. */
export function drawSteady() {
  const { steady, verdict, labels } = shown;
  $('steady').hidden = calls.tool !== null && !calls.tool.has('lab');
  $('steady-go').hidden = steady !== null;
  const declaredAt = steady?.variable ? declarationOf(steady.variable) : null;
  $('steady-says').innerHTML = steadyText(steady, { isRefused: verdict?.kind === 'refused', labels, declaredAt });
  drawFreshness();
}

/** What a person does here. `askSteady` asks the lab. */
export function listenSteady(askSteady) {
  $('steady-go').addEventListener('click', askSteady);
  document.addEventListener('click', (event) => {
    if (event.target.id === 'to-steady') $('steady').scrollIntoView({ block: 'nearest' });
  });
}
