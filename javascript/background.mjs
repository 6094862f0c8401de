// Files split and joined in a worker of a page, which stays alive meanwhile.
import { ShardsError } from "./shards.mjs";

/** A worker with an instance of the library of its own, made of the compiled module or of the place that `load`
 * takes. */
export class Background {
  #worker;
  #source;
  #waiting = new Map();
  #last = 0;

  constructor(source) {
    this.#source = source;
    this.#worker = new Worker(new URL("worker.mjs", import.meta.url), { type: "module" });
    this.#worker.addEventListener("message", ({ data }) => this.#answered(data));
    this.#worker.addEventListener(
      "error", (event) => this.#failed(new Error(event.message ?? "the worker was not loaded"))
    );
  }

  /** As `split` of shards.mjs. */
  split(file, data, parity, options) {
    return this.#run("split", { file, data, parity }, options);
  }

  /** As `join` of shards.mjs. */
  join(shards, options) {
    return this.#run("join", { shards }, options);
  }

  /** As `inspect` of shards.mjs. */
  inspect(shards, options) {
    return this.#run("inspect", { shards }, options);
  }

  /** Ends the worker; what it was at fails. */
  close() {
    this.#worker.terminate();
    this.#failed(new Error("the worker was closed"));
  }

  #run(task, given, { signal, onProgress } = {}) {
    return new Promise((resolve, reject) => {
      if (signal?.aborted) return reject(signal.reason);
      const id = ++this.#last;
      const cancel = () => this.#worker.postMessage({ id, task: "cancel" });
      signal?.addEventListener("abort", cancel, { once: true });
      const end = (settle) => (value) => {
        signal?.removeEventListener("abort", cancel);
        this.#waiting.delete(id);
        settle(value);
      };
      this.#waiting.set(id, { resolve: end(resolve), reject: end(reject), onProgress, signal });
      this.#worker.postMessage({ id, task, given, source: this.#source });
    });
  }

  #answered({ id, progress, result, error }) {
    const waiting = this.#waiting.get(id);
    if (!waiting) return;
    if (progress !== undefined) return void waiting.onProgress?.(progress);
    if (!error) return void waiting.resolve(result);
    if (waiting.signal?.aborted) return void waiting.reject(waiting.signal.reason);
    const { name, code, message } = error;
    waiting.reject(
      name === "ShardsError" ? new ShardsError(code, message) : Object.assign(new Error(message), { name, code })
    );
  }

  #failed(error) {
    for (const it of [...this.#waiting.values()]) it.reject(error);
  }
}
