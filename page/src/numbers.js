// Numbers as the page writes them.

/** A number with narrow spaces between thousands, at which no line is broken. */
export function spaced(number) {
  return String(number).replace(/\B(?=(\d{3})+(?!\d))/g, '\u202f');
}

/** A count with the word for it. */
export function counted(number, word, many = `${word}s`) {
  return `${spaced(number)} ${number === 1 || number === 1n ? word : many}`;
}

const WORDS = ['none', 'one', 'two', 'three', 'four', 'five', 'six', 'seven', 'eight', 'nine', 'ten', 'eleven',
  'twelve'];

/** A small number as a word, a greater one in digits. */
export function inWords(number) {
  return WORDS[Number(number)] ?? spaced(number);
}

const LONGEST = 13; // digits of a bound that is written whole

/** A bound of any size as HTML: whole, or rounded up to three digits and never down. */
export function boundText(bound) {
  const digits = String(bound);
  if (digits.length <= LONGEST) return spaced(digits);
  const unit = 10n ** BigInt(digits.length - 3);
  let mantissa = (BigInt(bound) + unit - 1n) / unit, exponent = digits.length - 1;
  if (mantissa === 1000n) [mantissa, exponent] = [100n, exponent + 1];
  return `${mantissa / 100n}.${String(mantissa % 100n).padStart(2, '0')}\u202f×\u202f10<sup>${exponent}</sup>`;
}

/** The bound as a power, as HTML. */
export function powerText({ base, exponent }) {
  return base === 1 ? '1' : `${spaced(base)}<sup>${spaced(exponent)}</sup>`;
}

/** The words that say that a bound was rounded up, with the bound whole; nothing where it stands whole. */
export function wholeBound(bound) {
  return String(bound).length > LONGEST ? `rounded up from ${spaced(bound)}` : '';
}
