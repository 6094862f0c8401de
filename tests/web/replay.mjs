// Replays the cases of tests/write_cases.py, in node and in a browser, in two ways: by the module's own functions over
// its memory, where also what a refused call leaves is looked at, and by the package, with typed arrays.
import { FUNCTIONS } from "./binary_field/tables.mjs";
import { Library } from "./binary_field/memory.mjs";

const FILL = 0xa5;
const PAGE = 65536;
const ARRAYS = { 1: Uint8Array, 2: Uint16Array, 4: Uint32Array };

const bytesOf = (hex) => (
  hex === "-" || hex === undefined
    ? null
    : Uint8Array.from({ length: hex.length / 2 }, (_, at) => parseInt(hex.slice(2 * at, 2 * at + 2), 16))
);

/** Reads a line; a case is given once all of its parameters were read. */
export class Reader {
  #case = null;

  constructor(onCase) {
    this.onCase = onCase;
  }

  line(text) {
    const words = text.split(" ");
    if (/^(in|out|inout|scalar|number|result|state|space|count)$/.test(words[0]) && words.length === 6) {
      const [kind, size, cut, count, before, after] = words;
      // Of nothing there is no text either.
      this.#case.parameters.push(
        {
          kind,
          size: +size,
          cut: cut === "1",
          count: +count,
          before: bytesOf(before),
          after: bytesOf(after) ?? new Uint8Array(0)
        }
      );
      return;
    }
    this.end();
    const [name, status, each] = words;
    this.#case = { name, status: +status, each: +each, parameters: [] };
  }

  end() {
    if (this.#case) this.onCase(this.#case);
    this.#case = null;
  }
}

/** The arguments of a call of a case at length n: what each is before the call, and what it has to be after it. */
function argumentsAt(it, n) {
  return it.parameters.map((p) => {
    const isWord = ["scalar", "number", "count", "result", "state"].includes(p.kind);
    const count = isWord ? 1 : p.cut ? n : p.count;
    const bytes = count * p.size;
    const before = p.before ? p.before.slice(0, bytes) : new Uint8Array(bytes).fill(FILL);
    const start = p.kind === "result" && p.cut ? n * p.size : 0;
    const after = p.kind === "space" ? null : it.status ? before : p.after.slice(start, start + bytes);
    return { kind: p.kind, size: p.size, count, before, after };
  });
}

const isSame = (left, right) => left.length === right.length && left.every((byte, at) => byte === right[at]);
const numberOf = (bytes) => bytes.reduceRight((number, byte) => (number << 8n) | BigInt(byte), 0n);

/** Calls by the module's functions: the status, and the bytes of each argument behind the call. */
function rawCall(instance) {
  const { memory, __heap_base } = instance.exports;
  const base = (Number(__heap_base.value) + 15) & ~15;
  const grow = (end) => {
    const pages = Math.ceil((end - memory.buffer.byteLength) / PAGE);
    if (pages <= 0) return;
    try {
      memory.grow(BigInt(pages));
    } catch {
      memory.grow(pages);
    }
  };
  return (name, given, n) => {
    let end = base;
    for (const it of given) {
      // Words of 16 and 24 bytes have the alignment of 8, and no larger one in every other call.
      it.place = ((end + 15) & ~15) + (it.size > 8 && n % 2 ? 8 : 0);
      end = it.place + it.before.length;
    }
    grow(end);
    const bytes = new Uint8Array(memory.buffer);
    for (const it of given) bytes.set(it.before, it.place);
    const passed = given.flatMap((it) => {
      const isWide = it.kind === "scalar" && it.size > 8;
      if (["number", "count"].includes(it.kind) || (it.kind === "scalar" && !isWide)) {
        return [it.size === 8 ? numberOf(it.before) : Number(numberOf(it.before))];
      }
      // An empty array may have no place.
      const place = BigInt(it.before.length ? it.place : 0);
      return ["in", "inout", "out", "space"].includes(it.kind) ? [place, BigInt(it.count)] : [place];
    });
    const status = instance.exports[`bf_${name}`](...passed) >>> 0;
    return { status, after: given.map((it) => bytes.slice(it.place, it.place + it.before.length)) };
  };
}

/** Calls by the package. */
function packageCall(instance) {
  const library = new Library(instance, 2 ** 32);
  return (name, given) => {
    const values = given.map((it) => {
      if (["number", "count", "scalar"].includes(it.kind)) return numberOf(it.before);
      if (it.kind === "space") return it.count;
      return new (ARRAYS[it.size] ?? BigUint64Array)(it.before.slice().buffer);
    });
    const status = library.statusOf(name, values);
    return { status, after: values.map((it) => (ArrayBuffer.isView(it) ? new Uint8Array(it.buffer) : null)) };
  };
}

/** A replay by one of the two ways: `run` takes a case and calls it at each `step`-th length and the last. */
export function replay(instance, way, step = 1) {
  const call = way === "package" ? packageCall(instance) : rawCall(instance);
  const found = { calls: 0, wrong: 0, first: [], names: new Set() };
  const one = (it, n) => {
    const given = argumentsAt(it, n);
    const { status, after } = call(it.name, given, n);
    found.calls++;
    const at = given.findIndex(
      (argument, place) => argument.after && after[place] && !isSame(argument.after, after[place])
    );
    if (status === it.status && at < 0) return;
    found.wrong++;
    const other = at < 0 ? "" : `, argument ${at} is other`;
    if (found.first.length < 5) found.first.push(`${it.name} at ${n}: status ${status}, wanted ${it.status}${other}`);
  };
  found.run = (it) => {
    found.names.add(it.name);
    const last = Math.max(0, it.each);
    for (let n = 0; n < last; n += step) one(it, n);
    one(it, last);
  };
  /** What is to be said at the end. */
  found.text = () => {
    const missing = Object.keys(FUNCTIONS).filter((name) => !found.names.has(name));
    const said = [`${found.calls} calls of ${found.names.size} functions, ${found.wrong} wrong`, ...found.first];
    return [
      missing.length ? `${said}; never called: ${missing}` : said.join("; "), found.wrong === 0 && missing.length === 0,
    ];
  };
  return found;
}
