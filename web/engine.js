// The worker as the page sees it: one call at a time, which can be stopped.
'use strict';

// Tells whether this browser runs WebAssembly: a phone in a lockdown doesn't.
const canRun = () => typeof WebAssembly === 'object';

class Engine {
  // The texts of the worker's script and of the module in base 64.
  constructor(script, module) {
    this.script = URL.createObjectURL(new Blob([script], { type: 'text/javascript' }));
    this.module = Uint8Array.from(atob(module), (letter) => letter.charCodeAt(0));
    this.begin();
  }

  begin() {
    this.waiting = null;
    this.worker = new Worker(this.script);
    this.worker.onmessage = ({ data }) => this.answer(data);
    this.worker.onerror = (event) => this.answer({ failed: event.message || 'the worker stopped' });
    this.ready = this.send({ module: this.module });
  }

  // Returns another worker with the same module.
  another() {
    const other = Object.assign(Object.create(Engine.prototype), { script: this.script, module: this.module });
    other.begin();
    return other;
  }

  send(message) {
    return new Promise((answer) => {
      this.waiting = answer;
      this.worker.postMessage(message);
    });
  }

  answer(data) {
    this.waiting?.(data);
    this.waiting = null;
  }

  // Answers what the worker answers: status, output, errors, or `failed`. Answers null if it is stopped.
  async call(request) {
    const { ready } = this;
    const loaded = await ready;
    if (ready !== this.ready) return null;
    return loaded.failed ? loaded : this.send(request);
  }

  // Stops the call that is being made, and begins anew.
  stop() {
    this.worker.terminate();
    this.answer(null);
    this.begin();
  }
}
