// The command lines that give the same answers, ready to copy.

import { escaped } from './colours.js';
import { commandLines } from './commands.js';
import { banksNow } from './machine_part.js';
import { $, shown, spaceNow, state } from './state.js';

let kind = ''; // what the lines are for: where there is no program they stay as they were

/** The command lines of what is shown. */
export function commandsNow() {
  const { verdict, audit, steady, compared } = shown;
  if (verdict?.kind === 'accepted') kind = spaceNow() ? 'space' : audit?.isCut ? 'cut' : 'accepted';
  else if (verdict?.kind === 'refused' || !kind) kind = verdict?.kind ?? '';
  const mark = kind === 'accepted' ? shown.tuned?.mark ?? null : null;
  return commandLines(state, kind, { steady, banks: compared ? banksNow() : null, mark });
}

// The words of a line, each of which stays whole where the line is too long for its place.
const wordsText = (line) => line.split(' ').map((word) => `<span class="keep">${escaped(word)}</span>`).join(' ');

export function drawCommands() {
  const rows = commandsNow()
    .map(({ says, line }) => `<div class="command"><span>${says}</span> <code>${wordsText(line)}</code> `
    + `<button type="button" class="link"`
      + ` data-copy-line="${escaped(line)}" aria-label="Copy the command for ${says}">Copy</button></div>`);
  const text = rows.join('');
  if ($('command-list').innerHTML !== text) $('command-list').innerHTML = text;
}

export function listenCommands() {
  $('command-list').addEventListener('click', async ({ target }) => {
    const line = target.dataset.copyLine;
    if (line === undefined) return;
    try {
      await navigator.clipboard.writeText(line);
      target.textContent = 'Copied';
    } catch {
      getSelection().selectAllChildren(target.previousElementSibling);
      target.textContent = 'Selected';
    }
    setTimeout(() => { target.textContent = 'Copy'; }, 2500);
  });
}
