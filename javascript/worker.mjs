// A worker of a page: it splits and joins files, so that the page stays alive. `Background` in background.mjs speaks
// with it.
import { load } from "./binary_field.mjs";
import { inspect, join, split } from "./shards.mjs";

let library;
const running = new Map();
const TASKS = {
  split: (bf, { file, data, parity }, options) => split(bf, file, data, parity, options),
  join: (bf, { shards }, options) => join(bf, shards, options),
  inspect: (bf, { shards }, options) => inspect(shards, options),
};

async function run({ id, task, given, source }) {
  const controller = new AbortController();
  running.set(id, controller);
  let told = 0;
  // A message for each hundredth is enough.
  const onProgress = (done) => {
    if (done - told >= 0.01 || done >= 1) globalThis.postMessage({ id, progress: (told = done) });
  };
  try {
    library ??= load(source);
    const result = await TASKS[task](await library, given, { signal: controller.signal, onProgress });
    globalThis.postMessage({ id, result });
  } catch (error) {
    globalThis.postMessage({ id, error: { name: error.name, code: error.code, message: error.message } });
  } finally {
    running.delete(id);
  }
}

globalThis.addEventListener("message", ({ data }) => {
  if (data.task === "cancel") running.get(data.id)?.abort();
  else run(data);
});
