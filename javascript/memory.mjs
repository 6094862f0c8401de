// The module and its memory: what a call is passed is copied in, and what it wrote is copied back.
//
// The module reads and writes its own memory alone. A call lays what it takes into one room behind the module's own
// data, and the next call lays it there again, so that nothing is left to free. No code of a caller runs between the
// first copy and the last: all that was passed is looked at before.
import { FIELD_WORDS, FUNCTIONS, STATE_WORDS, STATUSES, VERSION } from "./tables.mjs";

// How many bytes a word has.
const BYTES = {
  u8: 1,
  u16: 2,
  u32: 4,
  u64: 8,
  u128: 16,
  u192: 24,
  usize: 8,
  bool: 1,
  ghash_state: 8 * STATE_WORDS,
  polyval_state: 8 * STATE_WORDS,
  field: 8 * FIELD_WORDS
};
const ARRAY_OF = { u8: "Uint8Array", bool: "Uint8Array", u16: "Uint16Array", u32: "Uint32Array" };
const PAGE = 65536;
const ALIGNMENT = 16;
const ARRAYS = new Set(["in", "inout", "out", "space"]);
const WRITTEN = new Set(["inout", "out", "result", "state"]);

// What a typed array says of itself, whatever a caller has put over it.
const prototype = Object.getPrototypeOf(Uint8Array.prototype);
const asked = (name) => {
  const { get } = Object.getOwnPropertyDescriptor(prototype, name);
  return (value) => Reflect.apply(get, value, []);
};
/** The name of a value's type where it is a typed array, else undefined. */
export const typeOfArray = asked(Symbol.toStringTag);
/** How many words a typed array has. */
export const lengthOf = asked("length");
const bufferOf = asked("buffer");
const offsetOf = asked("byteOffset");
const byteLengthOf = asked("byteLength");

/** Why a call did nothing: a status of the library. Everything that it could write is as before. */
export class BinaryFieldError extends RangeError {
  constructor(name, status) {
    const [code, text] = STATUSES[status] ?? [`status ${status}`, "unknown status"];
    super(`${name}: ${text}`);
    this.name = "BinaryFieldError";
    /** The name of the status, as `BF_LENGTH`. */
    this.code = code;
    this.status = status;
  }
}

/** The module's memory may not grow to so many bytes. Nothing has changed. */
export class OutOfMemoryError extends RangeError {
  constructor(bytes) {
    super(`out of memory: a call takes ${bytes} bytes of the module's memory, which may not grow to them`);
    this.name = "OutOfMemoryError";
    this.bytes = bytes;
  }
}

/** A view of the bytes of a typed array of that type. A detached one is refused. */
function bytesOf(value, type, what) {
  const found = typeOfArray(value);
  if (found !== type) {
    throw new TypeError(`${what} is ${found ? `a ${found}` : describe(value)}, and not a ${type}`);
  }
  // A view of a detached buffer is a TypeError by itself; this one says which argument it was.
  try {
    return new Uint8Array(bufferOf(value), offsetOf(value), byteLengthOf(value));
  } catch {
    throw new TypeError(`${what} has a detached buffer`);
  }
}

/** What a value is, for messages. */
export function describe(value) {
  if (value === null) return "null";
  if (typeof value === "number" || typeof value === "bigint") return `the number ${value}`;
  return typeof value === "object" ? "an object" : `a ${typeof value}`;
}

/** A whole number from 0 to below 2^bits, given as a number or a BigInt, as a BigInt. */
export function wholeNumber(value, bits, what) {
  if (typeof value === "number") {
    if (!Number.isSafeInteger(value)) {
      throw new RangeError(`${what} is ${value}, and not a whole number below 2^53; larger ones are BigInt`);
    }
    value = BigInt(value);
  }
  if (typeof value !== "bigint") throw new TypeError(`${what} is ${describe(value)}, and not a number or a BigInt`);
  if (value < 0n || value >> BigInt(bits)) throw new RangeError(`${what} is ${value}, and not from 0 to 2^${bits} - 1`);
  return value;
}

/** Writes a number as bytes, the lowest first. */
function writeNumber(view, number) {
  for (let at = 0; at < view.length; at++) view[at] = Number((number >> BigInt(8 * at)) & 255n);
}

/** How a parameter of a function is passed. */
function parameterOf([kind, name, word]) {
  const bytes = BYTES[word];
  return {
    kind, name, bytes,
    isArray: ARRAYS.has(kind),
    isWritten: WRITTEN.has(kind),
    // A number goes by itself; a wide scalar goes by the place where it stands.
    isNumber: kind === "number" || kind === "count" || (kind === "scalar" && bytes <= 8),
    isWideScalar: kind === "scalar" && bytes > 8,
    isBig: bytes === 8,
    // A bool is the byte 0 or 1, before a call too.
    isCleared: kind === "space" && word === "bool",
    type: ARRAY_OF[word] ?? "BigUint64Array",
  };
}

/** What one argument is: a number, or bytes that get a place. It is looked at whole before anything is copied. */
function argumentOf(parameter, value, what) {
  const { kind, bytes } = parameter;
  if (parameter.isNumber) {
    const number = wholeNumber(value, 8 * bytes, what);
    return { parameter, number: parameter.isBig ? number : Number(number) };
  }
  if (parameter.isWideScalar) return { parameter, size: bytes, scalar: wholeNumber(value, 8 * bytes, what) };
  if (kind === "space") return { parameter, size: Number(wholeNumber(value, 40, what)) * bytes };
  const view = bytesOf(value, parameter.type, what);
  if (view.length % bytes) {
    throw new RangeError(`${what} has ${view.length} bytes, which are not whole elements of ${bytes}`);
  }
  if (!parameter.isArray && view.length !== bytes) throw new RangeError(`${what} has not one element`);
  return { parameter, size: view.length, view };
}

/** The library: the functions of a module by their names, and its memory. */
export class Library {
  #functions;
  #memory;
  #start;
  #limit;
  #plans = new Map();

  /** An instance of the module, and how many bytes its memory may have at most. */
  constructor(instance, limit) {
    const exported = instance.exports;
    if (typeof exported.bf_version !== "function") {
      throw new TypeError("the module is not that of the library: it has no bf_version");
    }
    if (exported.bf_version() !== VERSION) {
      throw new Error(`the module has version ${exported.bf_version()}, but this package needs ${VERSION}`);
    }
    this.#functions = exported;
    this.#memory = exported.memory;
    const end = Number(exported.__heap_base.value);
    this.#start = end + (-end & (ALIGNMENT - 1));
    this.#limit = limit;
    for (const [name, parameters] of Object.entries(FUNCTIONS)) {
      const call = exported[`bf_${name}`];
      if (typeof call !== "function") throw new TypeError(`the module has no function bf_${name}`);
      this.#plans.set(name, { call, parameters: parameters.map(parameterOf) });
    }
  }

  /** How many bytes the module's memory has now. */
  get memoryBytes() {
    return this.#memory.buffer.byteLength;
  }

  /** Calls a function by its name without `bf_`. Of an array it is passed a typed array, of space the number of
   * words, of a number or a scalar that, and of a result an array of one element. What it wrote is in these arrays
   * once it returns; where it throws, they are as before. */
  call(name, ...values) {
    const status = this.statusOf(name, values);
    if (status) throw new BinaryFieldError(name, status);
  }

  /** The status of a call, which has then written what it says to the arrays where it is 0, and else nothing. */
  statusOf(name, values) {
    if (!this.#plans.has(name)) throw new TypeError(`the library has no function ${name}`);
    const { call, parameters } = this.#plans.get(name);
    if (values.length !== parameters.length) throw new TypeError(`${name} takes ${parameters.length} arguments`);
    const given = parameters.map((it, at) => argumentOf(it, values[at], `${name}: ${it.name}`));
    let end = this.#start;
    for (const it of given) {
      if (it.size === undefined) continue;
      it.place = end;
      end += it.size + (-it.size & (ALIGNMENT - 1));
    }
    this.#grow(end);
    const memory = new Uint8Array(this.#memory.buffer);
    const passed = [];
    for (const it of given) {
      if (it.size === undefined) {
        passed.push(it.number);
        continue;
      }
      if (it.view) memory.set(it.view, it.place);
      if (it.parameter.isCleared) memory.fill(0, it.place, it.place + it.size);
      if (it.scalar !== undefined) writeNumber(memory.subarray(it.place, it.place + it.size), it.scalar);
      passed.push(BigInt(it.place));
      if (it.parameter.isArray) passed.push(BigInt(it.size / it.parameter.bytes));
    }
    const status = call(...passed) >>> 0;
    if (status === 0) {
      for (const it of given) {
        if (it.parameter.isWritten) it.view.set(memory.subarray(it.place, it.place + it.size));
      }
    }
    return status;
  }

  // Has the memory grow to so many bytes, where it has fewer.
  #grow(bytes) {
    const missing = bytes - this.#memory.buffer.byteLength;
    if (missing <= 0) return;
    const pages = Math.ceil(missing / PAGE);
    if (bytes > this.#limit) throw new OutOfMemoryError(bytes);
    try {
      this.#memory.grow(BigInt(pages));
    } catch (error) {
      // Engines that had such memories early take a number here.
      if (!(error instanceof TypeError)) throw new OutOfMemoryError(bytes);
      try {
        this.#memory.grow(pages);
      } catch {
        throw new OutOfMemoryError(bytes);
      }
    }
  }
}
