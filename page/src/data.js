// What page/build puts in: the module, the worker's text, and the texts of the examples. The page finds them in
// elements of its own, so that this file is the same whatever is put in.

import { programsOf } from './module.js';
import { Tool } from './tool.js';

const textOf = (id) => document.getElementById(id).textContent;

/** The texts of the examples by their files' names. */
export const DATA = JSON.parse(textOf('examples-data'));

// The module's bytes: deflated, in base64.
async function moduleBytes() {
  const packed = Uint8Array.from(atob(textOf('module-data').trim()), (sign) => sign.charCodeAt(0));
  const plain = new Blob([packed]).stream().pipeThrough(new DecompressionStream('deflate-raw'));
  return new Response(plain).arrayBuffer();
}

/** Two tools over the module: one for what is shown, one for the sweep, so that it holds nothing up. */
export async function startModule() {
  const module = await WebAssembly.compile(await moduleBytes());
  const address = URL.createObjectURL(new Blob([textOf('worker-text')], { type: 'text/javascript' }));
  const programs = programsOf(module);
  const makeWorker = () => {
    const worker = new Worker(address);
    worker.postMessage({ module });
    return worker;
  };
  return [new Tool(makeWorker, programs), new Tool(makeWorker, programs)];
}
