// How far a long run is: told by runs of its own, one after the other, each asked for up to twice as many cycles as
// before. So what is told is a fact about the runs, whatever the module is working on at that time.

import { countCall, filesOf } from './commands.js';
import { counted, spaced } from './numbers.js';
import { oneStart, readStarts } from './starts.js';

const DONE = 0, UNFINISHED = 10;
const FIRST_CYCLES = 2 ** 16; // up to which a run is asked for first

/** Follows the runs of what is `asked`, and calls `tell` with what is known each time: {run, runs,
    cycle, budget}, of the
    run that goes on and has passed that cycle, or {runs, isEnded} where all have ended or have come
    to the last cycle. */
export async function followRuns(tool, asked, tell) {
  const starts = readStarts(asked.starts), most = Number(asked.budget);
  if (starts.fault) return;
  const runs = starts.runs.length;
  for (let k = 0; k < runs; k++) {
    const files = filesOf({ ...asked, starts: oneStart(starts, k) });
    tell({ run: k + 1, runs, cycle: 0, budget: most });
    for (let cycles = FIRST_CYCLES; cycles < most; cycles *= 2) {
      const { status } = await tool.call(...countCall({ ...asked, budget: String(cycles) }), files);
      if (status === DONE) break;
      if (status !== UNFINISHED) return;
      tell({ run: k + 1, runs, cycle: cycles, budget: most });
    }
  }
  tell({ runs, isEnded: true });
}

// A share of the cycles that are asked for, rounded down: never more than was done.
function shareText(cycle, budget) {
  const share = (100 * cycle) / budget;
  if (share < 0.01) return 'less than 0.01 %';
  return `${share < 1 ? Math.floor(share * 100) / 100 : Math.floor(share)} %`;
}

/** What is told of a long run. `step` is what is being worked out: {says, number, of}; `told` how far the runs are. */
export function progressText(seconds, step, told) {
  const begin = `${step.says} (step ${step.number} of ${step.of}), ${seconds.toFixed(1)} s`;
  if (!told) return begin;
  if (told.isEnded) {
    return `${begin}: ${told.runs === 1 ? 'the run has' : `all ${spaced(told.runs)} runs have`} been followed`;
  }
  const run = `${begin}: run ${spaced(told.run)} of ${spaced(told.runs)}`;
  if (!told.cycle) return run;
  const share = shareText(told.cycle, told.budget);
  return `${run} is past ${counted(told.cycle, 'cycle')} of ${spaced(told.budget)}, ${share}`;
}
