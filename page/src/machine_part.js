// The machine: which file is chosen beside the environments, its text, what is refused in it, and what the same runs
// show with partitions beside one cache for all.

import { escaped } from './colours.js';
import { SIDES } from './commands.js';
import { DATA } from './data.js';
import { drawFreshness } from './freshness_part.js';
import { machineOf, machinesOf, OWN, sharingOf, withSharing } from './machine.js';
import { comparedSentence, comparedText, machineFaultText, machineSays } from './machine_text.js';
import { saveText } from './saving.js';
import { $, answeredOf, calls, faults, shown, state } from './state.js';

const MACHINES = machinesOf(DATA), FILE = 'file:', OWN_CHOICE = 'own';

const chosenFile = () => (state.environment === OWN ? MACHINES.find(({ text }) => text === state.machine) : undefined);

/** The text of the machine whose partitions are set beside one cache for all; null where there is none, as without
    caches and where the page cannot read it. */
export function banksNow() {
  const text = machineOf(state, DATA);
  return text !== null && sharingOf(text) !== null && !faults.machine ? text : null;
}

/** Whether the text of a machine is a person's own. */
export const isOwnMachine = (text) => Boolean(text) && !MACHINES.some((machine) => machine.text === text);

// What stands in the choice of caches, and in the text below.
function drawChoice() {
  const file = chosenFile(), isOwn = state.environment === OWN;
  $('environment').value = !isOwn ? state.environment : file ? FILE + file.name : OWN_CHOICE;
  const text = machineOf(state, DATA) ?? state.machine;
  if ($('machine-text').value !== text) $('machine-text').value = text;
  const named = isOwn ? file?.name : `${state.environment}, as a file`;
  const says = machineSays({ environment: state.environment, name: named, sharing: sharingOf(text) });
  if ($('machine-says').innerHTML !== says) $('machine-says').innerHTML = says;
}

function drawFault() {
  const { machineFault } = shown, isFault = faults.machine !== '' && machineFault !== null;
  $('machine-fault').innerHTML = isFault ? machineFaultText(machineFault) : '';
  $('machine-text').setAttribute('aria-invalid', String(isFault));
}

/** The machine, and both sides where they were asked for; nothing where the lab is not in the module. */
export function drawMachine() {
  const { compared, labels } = shown;
  $('machine').hidden = calls.tool !== null && !calls.tool.has('lab');
  drawChoice();
  drawFault();
  $('machine-shown').hidden = compared === null;
  $('machine-go').disabled = banksNow() === null || shown.verdict?.kind !== 'accepted';
  if (compared) {
    $('machine-sentence').innerHTML = comparedSentence(compared, labels, answeredOf.compared.observer);
    $('machine-sides').innerHTML = comparedText(compared);
  }
  drawFreshness();
}

/** What the lab refused in the machine file, or null. */
export function noteMachineFault(fault) {
  shown.machineFault = fault;
  faults.machine = fault ? `The machine file is refused: ${fault.words}.` : '';
  drawFault();
}

function choose(environment, machine) {
  Object.assign(state, { environment, machine });
  noteMachineFault(null);
  drawMachine();
}

// Goes to a line of the machine's text, from 1, and selects it.
function goToLine(number) {
  const box = $('machine-text'), lines = box.value.split('\n');
  const from = lines.slice(0, number - 1).reduce((sum, line) => sum + line.length + 1, 0);
  box.focus();
  box.setSelectionRange(from, from + lines[number - 1].length);
}

function onChoice(changed) {
  const { value } = $('environment'), file = MACHINES.find(({ name }) => FILE + name === value);
  if (file) choose(OWN, file.text);
  else if (value !== OWN_CHOICE) choose(value, state.machine);
  else choose(OWN, machineOf(state, DATA) ?? (state.machine || MACHINES[0].text));
  changed({ now: true });
  if (value !== OWN_CHOICE) return;
  $('environment').value = value;
  $('machine-text').focus();
}

/** What a person does with the machine. `changed` asks anew, `compare` asks for both sides. */
export function listenMachine(changed, compare) {
  const group = MACHINES.map(({ name, says }) => `<option value="${FILE}${name}">${says}: ${escaped(name)}</option>`);
  $('environment').insertAdjacentHTML('beforeend', `<optgroup label="Machine files">${group.join('')}`
    + `<option value="${OWN_CHOICE}">your own machine</option></optgroup>`);
  $('environment').addEventListener('change', () => onChoice(changed));
  $('machine-text').addEventListener('input', () => {
    choose(OWN, $('machine-text').value);
    changed();
  });
  $('machine-fault').addEventListener('click', ({ target }) => {
    if (target.dataset.machineLine) goToLine(Number(target.dataset.machineLine));
  });
  $('machine-go').addEventListener('click', compare);
  $('machine-sides').addEventListener('click', ({ target }) => {
    const { save } = target.dataset, banks = banksNow();
    if (save && banks) saveText(withSharing(banks, save), SIDES[save]);
  });
}
