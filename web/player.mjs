// Plays scripts in a worker, one at a time.

/** Each play ends the one before, however far that is. */
export class Player {
  constructor(source, module) {
    this.source = URL.createObjectURL(new Blob([source], { type: "text/javascript" }));
    this.module = module;
    this.worker = null;
    this.isBusy = false;
  }

  /** Plays a script, given as octets. `told` gets each message of worker.mjs. */
  play(script, told) {
    this.stop();
    this.worker ??= new Worker(this.source);
    const { worker } = this;
    this.isBusy = true;
    worker.onmessage = ({ data }) => {
      if (worker !== this.worker) return;
      if (data.ended || data.failed !== undefined) this.isBusy = false;
      told(data);
    };
    worker.onerror = (event) => {
      if (worker !== this.worker) return;
      this.stop();
      told({ failed: event.message || "the worker has ended" });
    };
    worker.postMessage({ module: this.module, script });
  }

  stop() {
    if (!this.isBusy) return;
    this.worker.terminate();
    this.worker = null;
    this.isBusy = false;
  }
}
