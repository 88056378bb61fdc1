// Random programs with their starts, the same ones for the same number.

const LEVELS = ['L', 'M', 'H'], HEAD = 'labels L, M, H;\norder L < M, M < H;\n';
const VARIABLES = ['x', 'y', 'z', 'w'], ARRAYS = ['a', 'b'];
const OPERATORS = ['+', '-', '*', '/', '%', '==', '!=', '<', '<=', '>', '>='];

/** Numbers from 0 to below `most`, from a seed (xorshift of 32 bits). */
export function numbersFrom(seed) {
  let x = (seed * 2654435761 + 1) >>> 0 || 1;
  return (most) => {
    x ^= x << 13;
    x >>>= 0;
    x ^= x >>> 17;
    x ^= x << 5;
    x >>>= 0;
    return x % most;
  };
}

/** A random program, its starts, and whether they touch caches first. */
export function randomProgram(seed) {
  const number = numbersFrom(seed), pick = (list) => list[number(list.length)];
  const literal = () => pick(['0', '1', '2', '7', '13', '32767', '32768', '70000', '9223372036854775807']);
  const expression = (deep) => {
    const kind = number(deep > 0 ? 8 : 3);
    if (kind < 1) return literal();
    if (kind < 3) return pick(VARIABLES);
    if (kind < 4) return `${pick(ARRAYS)}[${expression(deep - 1)}]`;
    return `(${expression(deep - 1)} ${pick(OPERATORS)} ${expression(deep - 1)})`;
  };
  const list = (deep, loops) =>
    Array.from({ length: 1 + number(4) }, () => command(deep, loops)).join(';\n');
  const command = (deep, loops) => {
    const kind = number(deep > 0 ? 10 : 5);
    if (kind < 3) return `${pick(VARIABLES)} := ${expression(2)}`;
    if (kind < 4) return `${pick(ARRAYS)}[${expression(1)}] := ${expression(2)}`;
    if (kind < 5) return number(3) ? 'skip' : `sleep ${expression(1)} % 40`;
    if (kind < 7) return `if ${expression(2)} then {\n${list(deep - 1, loops)}\n} else {\n${list(deep - 1, loops)}\n}`;
    if (kind < 8 && loops < 2) {
      const name = `i${loops}`, body = list(deep - 1, loops + 1);
      return `${name} := ${1 + number(6)};\nwhile ${name} > 0 do {\n${body};\n${name} := ${name} - 1\n}`;
    }
    return `mitigate (${pick(['1', '3', '64', pick(VARIABLES)])}, ${pick(LEVELS)}) {\n${list(deep - 1, loops)}\n}`;
  };
  const top = pick(LEVELS), label = () => pick([top, 'H', 'H']);
  const labelled = [...VARIABLES, 'i0', 'i1'].map((name) => `var ${name} : ${label()};\n`);
  const program = `${HEAD}${labelled.join('')}var a[5] : H;\nvar b[40] : H;\n${list(3, 0)}\n`;
  const place = () => `place = "${pick(['page', 'code', 'data', 'second'])}", label = "${pick(LEVELS)}"`;
  const touches = number(2) ? `touch = [{ ${place()}, address = ${pick([0, 32, 1048576, 1048608])} }]\n` : '';
  const memory = () => `x = ${number(100)}, y = -${number(9)}, a = [${number(50)}, 3], w = ${number(70000)}`;
  const run = () => `[[run]]\nmemory = { ${memory()} }\n`;
  return { program, starts: `version = 2\n${run()}${touches}\n${run()}` };
}
