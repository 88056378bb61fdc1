// Axes of pictures.

/** Round numbers from a least to a greatest one, about so many. */
export function ticks(from, to, about) {
  const rough = Math.max((to - from) / about, 1e-9), power = 10 ** Math.floor(Math.log10(rough));
  const step = Math.max(1, [1, 2, 5, 10].map((factor) => factor * power).find((tried) => tried >= rough));
  const found = [];
  for (let k = Math.ceil(from / step); k * step <= to; k++) found.push(k * step);
  return found;
}

/** A coordinate with two digits at most behind the point. */
export function at(coordinate) {
  return String(Math.round(coordinate * 100) / 100);
}
