// The verdict, why a program is refused, and the mitigate that is offered for it.

import { escaped } from './colours.js';
import { changeProgram, focusProgram } from './program_part.js';
import { $, shown } from './state.js';
import { isOnlyRefused } from './steady_part.js';
import { besideVerdict } from './steady_text.js';
import { faultText, mendText, verdictText, whyText } from './verdict_text.js';

/** The verdict, and below it why. */
export function drawVerdict() {
  const { verdict, labels, steps, told } = shown;
  const isNoLeak = isOnlyRefused();
  $('verdict').className = `verdict ${verdict.kind === 'accepted' ? 'yes' : isNoLeak ? 'rules' : 'no'}`;
  $('verdict').innerHTML = verdictText(verdict, labels);
  $('verdict-steady').innerHTML = isNoLeak ? besideVerdict(shown.steady, labels) : '';
  $('why').innerHTML = verdict.kind === 'syntax' ? faultText(told) : whyText(verdict, steps);
  $('mend').innerHTML = '';
  $('problems').scrollTop = 0;
}

/** The mitigate that is offered: `found` has the mended text, and the first and last line that go into it. */
export function offerMend(found) {
  shown.mended = found.text;
  $('mend').innerHTML = mendText(found, isOnlyRefused());
}

/** That there is no answer, since the runs were stopped or the module could not go on. */
export function drawNoAnswer(why) {
  $('verdict').className = 'verdict';
  $('verdict-steady').innerHTML = '';
  $('verdict').innerHTML = why === null
    ? 'Stopped <span>Change something to ask again.</span>'
    : `No answer <span>The module could not go on: ${escaped(why)}</span>`;
}

/** That the module could not be started. */
export function drawNoModule(why) {
  const needs = 'This page needs a browser with WebAssembly, workers and DecompressionStream.';
  $('verdict').className = 'verdict no';
  $('verdict').innerHTML = `The tool could not be started <span>${escaped(why)}. ${needs}</span>`;
  $('sentence').textContent = 'The tool could not be started.';
}

/** The offered mitigate, taken. */
export function listenVerdict() {
  $('mend').addEventListener('click', (event) => {
    if (event.target.id !== 'mend-go') return;
    changeProgram(shown.mended);
    focusProgram();
  });
}
