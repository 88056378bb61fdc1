// The worker in which the module runs. It gets the module once, and then calls; it answers each.

import { call, programsOf } from './module.js';

let module = null;

self.onmessage = ({ data }) => {
  if (data.module) {
    ({ module } = data);
    self.postMessage({ programs: programsOf(module) });
    return;
  }
  try {
    self.postMessage({ id: data.id, ...call(module, data.program, data.words, data.files) });
  } catch (fault) {
    self.postMessage({ id: data.id, fault: String(fault) });
  }
};
