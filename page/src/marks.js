// Names and places as the page writes them.

import { escaped, labelClass } from './colours.js';

/** A label in its colour, of the labels of a program. */
export function labelText(name, labels) {
  return `<b class="${labelClass(Math.max(labels.names.indexOf(name), 0))}">${escaped(name)}</b>`;
}

/** A place, as `18:1`. */
export const placeText = (place) => `${place.line}:${place.column}`;

/** A place that can be pressed, which goes there. */
export function placeButton(place) {
  const text = typeof place === 'string' ? place : placeText(place);
  return `<button type="button" class="place" data-place="${text}">${text}</button>`;
}
