// The box that tells what a term says, where it was pressed.

import { $ } from './state.js';
import { TERMS, termText } from './terms.js';

const MARGIN = 8; // between the box, the term and the edges of the window

let opener = null; // what was pressed

const nowAt = (name) => document.querySelector(`[data-term="${name}"]`);

/** Closes the box; the focus goes back to what was pressed, or to what stands in its place, where it `returns`. */
function close(returns) {
  if ($('term').hidden) return;
  const name = $('term').dataset.name, at = opener?.isConnected ? opener : nowAt(name);
  $('term').hidden = true;
  at?.removeAttribute('aria-expanded');
  opener = null;
  if (returns) at?.focus();
}

function open(button) {
  const box = $('term'), name = button.dataset.term;
  opener = button;
  box.dataset.name = name;
  $('term-name').textContent = name;
  $('term-says').innerHTML = termText(name);
  box.hidden = false;
  button.setAttribute('aria-expanded', 'true');
  const at = button.getBoundingClientRect(), { offsetWidth: wide, offsetHeight: high } = box;
  const isAbove = at.bottom + MARGIN + high > innerHeight && at.top - MARGIN - high > 0;
  const left = Math.max(MARGIN, Math.min(at.left, document.documentElement.clientWidth - wide - MARGIN));
  box.style.left = `${left + scrollX}px`;
  box.style.top = `${(isAbove ? at.top - MARGIN - high : at.bottom + MARGIN) + scrollY}px`;
  box.focus({ preventScroll: true });
}

/** Each term opens its box when it is pressed, by mouse, key or finger; Escape, the cross and a press
    elsewhere close it. */
export function listenTerms() {
  document.addEventListener('click', (event) => {
    const button = event.target.closest('[data-term]');
    if (button && TERMS[button.dataset.term]) {
      const isAgain = button === opener;
      close(isAgain);
      if (!isAgain) open(button);
    } else if (event.target.closest('#term-close')) {
      close(true);
    } else if (!event.target.closest('#term')) {
      close(false);
    }
  });
  document.addEventListener('keydown', (event) => {
    if (event.key === 'Escape') close(true);
  });
}
