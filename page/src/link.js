// A link that holds what is on the page, in its part after '#': JSON, packed where the browser can, in base64url.

import { readTask } from './tasks.js';

const base64 = (bytes) => {
  let text = '';
  for (const byte of bytes) text += String.fromCharCode(byte);
  return btoa(text).replaceAll('+', '-').replaceAll('/', '_').replace(/=+$/, '');
};
const unbase64 = (text) =>
  Uint8Array.from(atob(text.replaceAll('-', '+').replaceAll('_', '/')), (sign) => sign.charCodeAt(0));
const KEYS = { program: 'p', starts: 's', observer: 'o', environment: 'e', budget: 'b' };
const MACHINE = 'm'; // the machine file, where there is one
const MOST = 4 * 1024 * 1024;

// The bytes that come out of a packing or an unpacking, at most so many.
async function through(bytes, way) {
  const parts = [];
  let length = 0;
  for await (const part of chunks(new Blob([bytes]).stream().pipeThrough(way))) {
    length += part.length;
    if (length > MOST) throw new RangeError('too much');
    parts.push(part);
  }
  return new Uint8Array(await new Blob(parts).arrayBuffer());
}

async function* chunks(stream) {
  const reader = stream.getReader();
  try {
    for (let next = await reader.read(); !next.done; next = await reader.read()) yield next.value;
  } finally {
    reader.cancel().catch(() => {});
  }
}

/** The part after '#' for what is on the page, with a task of it where there is one. */
export async function linkOf(state, task = null) {
  const short = Object.fromEntries(Object.entries(KEYS).map(([name, letter]) => [letter, state[name]]));
  if (state.machine) short[MACHINE] = state.machine;
  if (task) short.t = task;
  const bytes = new TextEncoder().encode(JSON.stringify(short));
  if (typeof CompressionStream === 'undefined') return `#j${base64(bytes)}`;
  return `#z${base64(await through(bytes, new CompressionStream('deflate-raw')))}`;
}

/** What such a part says, with its `task` where it has one, or null where it says nothing. */
export async function stateOf(hash) {
  const found = /^#([jz])([A-Za-z0-9_-]+)$/.exec(hash);
  if (!found || hash.length > MOST) return null;
  try {
    const bytes = unbase64(found[2]);
    const plain = found[1] === 'j' ? bytes : await through(bytes, new DecompressionStream('deflate-raw'));
    const short = JSON.parse(new TextDecoder().decode(plain));
    const state = Object.fromEntries(Object.entries(KEYS).map(([name, letter]) => [name, short[letter]]));
    if (!Object.values(state).every((value) => typeof value === 'string')) return null;
    if (typeof short[MACHINE] === 'string') state.machine = short[MACHINE];
    const task = readTask(short.t);
    return task ? { ...state, task } : state;
  } catch {
    return null;
  }
}
