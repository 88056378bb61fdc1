// How the editor colours the words of a program: a mode for its library.

import { labelClass } from './colours.js';
import { copiedContext, freshContext, pieceAt, roleInContext } from './language.js';

const STYLES = { keyword: 'k', comment: 'note', number: 'figure', bad: 'bad' };

/** The style of a piece: a label, and a variable by its label, has the colour and the line of that label. */
export function styleOf(piece, role, labels) {
  if (piece.kind !== 'name') return STYLES[piece.kind] ?? null;
  const number = labels.names.indexOf(role === 'label' ? piece.text : labels.of.get(piece.text));
  return number < 0 ? null : labelClass(number);
}

/** The mode for the labels that `labelsNow` gives. A line is read from the context that the line before it leaves. */
export function modeOf(labelsNow) {
  return {
    startState: freshContext,
    copyState: copiedContext,
    token(stream, context) {
      const piece = pieceAt(stream.string, stream.pos);
      stream.pos += piece.text.length;
      const role = piece.kind === 'space' || piece.kind === 'comment' ? undefined : roleInContext(context, piece);
      return styleOf(piece, role, labelsNow());
    },
    lineComment: '//',
  };
}
