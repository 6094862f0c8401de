// Binary fields, codes and hashes, computed by a WebAssembly module whose functions are proved.
//
//     import { load } from "binary-field";
//     const bf = await load();
//     bf.Ghash128.multiply(1n << 127n, 2n); // 0x87n
//
// Trusted and not proved are this package, the compiler that made the module, and the engine that runs it.
import { answerOf, correctingOf, erasureOf, reedSolomonOf, tagsOf } from "./codes.mjs";
import { fieldsOf } from "./fields.mjs";
import { Library } from "./memory.mjs";
import { secretsOf } from "./secrets.mjs";
import { ghashOfStream, polyvalOfStream } from "./streams.mjs";
import { FIELDS, VERSION_TEXT } from "./tables.mjs";

export { BinaryFieldError, OutOfMemoryError } from "./memory.mjs";
export { ShareTextError } from "./secrets.mjs";

/** The version of the package and of the library. */
export const version = VERSION_TEXT;

// What has memories of 64 bits.
const HAVE_THEM = "Chromium 133, Firefox 134 and node 24 have them, node 20 by --experimental-wasm-memory64";

// The most that the module's memory may have where nothing else is said: 4 GiB.
const MOST_BYTES = 2 ** 32;

/** The compiled module of a source: its bytes, a compiled module, or a place; the file beside this one where none is
 * named. */
async function compiled(source) {
  if (source instanceof WebAssembly.Module) return source;
  if (source instanceof ArrayBuffer || ArrayBuffer.isView(source)) return WebAssembly.compile(source);
  // A relative place is one beside the page, or in the folder that a program runs in.
  const here = globalThis.location?.href ?? `file://${globalThis.process?.cwd() ?? ""}/`;
  const url = source === undefined ? new URL("binary_field.wasm", import.meta.url) : new URL(source, here);
  if (url.protocol === "file:") {
    // Node fetches no files. A bundler for browsers is not to look for this module.
    const { readFile } = await import(/* webpackIgnore: true */ "node:fs/promises");
    return WebAssembly.compile(await readFile(url));
  }
  const answered = await fetch(url);
  if (!answered.ok) throw new Error(`${url}: status ${answered.status}`);
  return WebAssembly.compile(await answered.arrayBuffer());
}

/** Loads the library. The module has no imports; each call of `load` makes an instance with a memory of its own. */
export async function load(source, { maximumBytes = MOST_BYTES } = {}) {
  let module;
  try {
    module = await compiled(source);
  } catch (error) {
    if (error instanceof WebAssembly.CompileError && /memory|limits|flag/i.test(error.message)) {
      throw new Error(`this engine has no memories of 64 bits: ${HAVE_THEM} (${error.message})`);
    }
    throw error;
  }
  const library = new Library(await WebAssembly.instantiate(module, {}), maximumBytes);
  const tags = tagsOf(library);
  return Object.freeze({
    ...fieldsOf(library),
    /** The fields in the order of the table, the levels of the tower first. */
    fields: Object.freeze(FIELDS.map((row) => row.type)),
    version,
    tags: Object.freeze({
      ...tags,
      ghashOfStream: (key, stream, options) => ghashOfStream(tags, key, stream, options),
      polyvalOfStream: (key, stream, options) => polyvalOfStream(tags, key, stream, options),
    }),
    ReedSolomon: reedSolomonOf(library),
    erasure: erasureOf(library),
    correcting: correctingOf(library),
    secrets: secretsOf(library),
    answer: answerOf(library),
    /** How many bytes the module's memory has now. It grows with the largest call, and does not shrink. */
    memoryBytes: () => library.memoryBytes,
    /** The compiled module, which a worker can be sent. */
    module,
    /** A call by its name in C without `bf_`, with arrays for what is read and written; every function is here. */
    call: (name, ...values) => library.call(name, ...values),
  });
}
