// The cycles of a run beside the lines of the program, where a person asks for them, and beside its code.

import { drawPaid } from './code_part.js';
import { lineCosts } from './line_costs.js';
import { theEditor } from './program_part.js';
import { lacksCode, ownCodeText, readingNow, runNumber, unreadText } from './reading_part.js';
import { costsByLine, linesOfCode, withReading } from './reading_text.js';
import { $, shown, state } from './state.js';

const SAYS = 'Beside a line, 29 (1) +13 says: its code took 29 cycles in this run, 1 look-up in a cache missed, and 13'
  + ' cycles were slept or waited. This is the page’s own reading of the run, which has each assignment, mitigation and'
  + ' end that the tool tells.';
const TOLD = 'Beside a line, @9 says: a variable got its value at cycle 9; 115+13: the body of a mitigate worked 115'
  + ' cycles and 13 were waited. Lines of which the timeline tells nothing have none.';

/** Draws the cycles of the run that is looked at, or of the first one; nothing of a run of another program. */
export function drawCosts() {
  const isAsked = $('costs-shown').checked, number = Math.max(shown.lane, 0), run = shown.runs?.[number];
  $('costs-of').textContent = isAsked && run ? `Cycles of run ${number + 1}` : 'Cycles';
  $('costs-says').hidden = !isAsked;
  const isThere = isAsked && runNumber() !== null, { about, reading } = isThere ? readingNow() : {};
  const told = `${TOLD} ${isThere ? unreadText(readingNow()) : ''}`.trim();
  $('costs-says').textContent = reading ? SAYS + ownCodeText() : told;
  drawPaid(reading?.costs ?? null);
  if (!isAsked) theEditor().showCosts(null);
  else theEditor().showCosts(isThere ? costsOf(run, about, reading) : new Map());
}

function costsOf(run, about, reading) {
  const told = lineCosts(state.program, run);
  return reading ? withReading(told, costsByLine(linesOfCode(about.program, state.program), reading.costs)) : told;
}

/** What a person does with the cycles. `ask` asks for the code, which a run is read by. */
export function listenCosts(ask) {
  $('costs-shown').addEventListener('change', () => {
    drawCosts();
    if ($('costs-shown').checked && lacksCode()) ask();
  });
}
