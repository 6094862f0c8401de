// The page: it loads the library, and starts its parts.
import { load } from "./binary_field/binary_field.mjs";
import { startAsk } from "./ask.mjs";
import { startSecrets } from "./secrets.mjs";
import { startShards } from "./shards.mjs";
import { startTransform } from "./transform.mjs";

const state = document.querySelector("#state");
const began = performance.now();

try {
  const bf = await load(new URL("binary_field/binary_field.wasm", import.meta.url));
  startAsk(bf);
  startShards(bf);
  startTransform(bf);
  startSecrets(bf);
  const spent = Math.round(performance.now() - began);
  state.textContent = `The library, version ${bf.version}, was loaded in ${spent} milliseconds.`;
  // What tests wait for.
  document.documentElement.dataset.state = "ready";
} catch (error) {
  state.textContent = `The library was not loaded: ${error.message}`;
  document.documentElement.dataset.state = "failed";
}
