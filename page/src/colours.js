// Colours: of labels, all but the first with a line below the word, and of runs that look alike, each with a shape. So
// up to six labels and up to five classes can be told apart without colours.

export const LABEL_COLOURS = 8;
const LINES = ['none', 'dotted', 'dashed', 'solid', 'double', 'wavy'];

/** The class names of a label: colour and line. The first label has no line. */
export function labelClass(number) {
  return `label l${number % LABEL_COLOURS} u${number === 0 ? 0 : 1 + ((number - 1) % (LINES.length - 1))}`;
}

export const CLASS_COLOURS = 6;

/** The colour of a class of runs, from 1. */
export function classColour(number) {
  return `var(--c${(number - 1) % CLASS_COLOURS})`;
}

const SHAPES = ['circle', 'square', 'diamond', 'up', 'down'];

/** The mark of a class at a place, as SVG: the shape changes with the class as the colour does. */
export function classMark(number, x, y, size, more = '') {
  const shape = SHAPES[(number - 1) % SHAPES.length], at = (n) => Math.round(n * 100) / 100;
  const points = {
    square: [[-0.9, -0.9], [0.9, -0.9], [0.9, 0.9], [-0.9, 0.9]],
    diamond: [[0, -1.25], [1.25, 0], [0, 1.25], [-1.25, 0]],
    up: [[0, -1.2], [1.1, 0.9], [-1.1, 0.9]],
    down: [[0, 1.2], [1.1, -0.9], [-1.1, -0.9]],
  }[shape];
  const fill = `fill="${classColour(number)}"`;
  if (!points) return `<circle cx="${at(x)}" cy="${at(y)}" r="${size}" ${fill} ${more}/>`;
  const text = points.map(([a, b]) => `${at(x + a * size)},${at(y + b * size)}`).join(' ');
  return `<polygon points="${text}" ${fill} ${more}/>`;
}

/** A text within HTML or SVG. */
export function escaped(text) {
  return String(text).replace(/[&<>"]/g, (sign) => ({ '&': '&amp;', '<': '&lt;', '>': '&gt;', '"': '&quot;' })[sign]);
}
