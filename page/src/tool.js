// The proved programs as the page sees them: calls that are answered by a worker, and that can be stopped.

/** A call was stopped before it was answered. */
export class Stopped extends Error {}

/** Calls of the programs in a worker. A worker that is stopped is thrown away, and the next call makes a new one. */
export class Tool {
  /** `makeWorker` makes a worker that already has, or is being sent, its module. `programs` are
      those that it offers. */
  constructor(makeWorker, programs) {
    this.makeWorker = makeWorker;
    this.programs = programs;
    this.worker = null;
    this.waiting = new Map();
    this.count = 0;
  }

  get isBusy() {
    return this.waiting.size > 0;
  }

  /** Whether a program is offered. */
  has(program) {
    return this.programs.includes(program);
  }

  /** The answer {status, text} of a call. It is refused where the call was stopped, or where the program could not go
      on. */
  call(program, words, files) {
    this.worker ??= this.started();
    const id = ++this.count;
    return new Promise((resolve, reject) => {
      this.waiting.set(id, { resolve, reject });
      this.worker.postMessage({ id, program, words, files });
    });
  }

  started() {
    const worker = this.makeWorker();
    worker.onmessage = ({ data }) => {
      const asked = this.waiting.get(data.id);
      if (!asked) return;
      this.waiting.delete(data.id);
      if (data.fault) asked.reject(new Error(data.fault));
      else asked.resolve({ status: data.status, text: data.text });
    };
    worker.onerror = (event) => {
      event.preventDefault?.();
      this.end(new Error(event.message ?? 'the worker could not go on'));
    };
    return worker;
  }

  /** Stops all calls that have no answer yet. */
  stop() {
    if (this.isBusy) this.end(new Stopped('stopped'));
  }

  end(fault) {
    this.worker?.terminate();
    this.worker = null;
    const all = [...this.waiting.values()];
    this.waiting.clear();
    for (const asked of all) asked.reject(fault);
  }
}
