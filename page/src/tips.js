// The words beside the pointer.

import { $ } from './state.js';

/** Shows the words of what the pointer is on, until Escape. */
export function listenTips() {
  const tip = $('tip');
  document.addEventListener('pointermove', (event) => {
    const text = event.target.closest?.('[data-tip]')?.dataset.tip;
    tip.style.opacity = text ? 1 : 0;
    if (!text) return;
    tip.textContent = text;
    tip.style.left = `${Math.max(4, Math.min(event.clientX + 12, innerWidth - tip.offsetWidth - 8))}px`;
    const below = event.clientY + 16, above = event.clientY - tip.offsetHeight - 10;
    tip.style.top = `${below + tip.offsetHeight > innerHeight ? above : below}px`;
  });
  document.addEventListener('keydown', (event) => {
    if (event.key === 'Escape') tip.style.opacity = 0;
  });
}
