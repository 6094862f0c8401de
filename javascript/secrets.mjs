// Shares of a secret (A. Shamir, How to share a secret, 1979): any of them, as many as are needed, restore it, and
// fewer say nothing of it. As text a share is a line of the program `secret`: `share-1-`, and two hexadecimal digits
// for each byte of its record and of a sum of that. A record is the number of the field, how many shares are needed,
// the index, 8 bytes that were drawn for all shares of the secret, and the share.
import { BinaryFieldError, describe, lengthOf, typeOfArray, wholeNumber } from "./memory.mjs";
import { hex, sha256 } from "./sha256.mjs";

// The fields of bytes by their moduli, and the low byte of each, which is its number in a record.
const MODULI = { aes: 0x11b, gfshare: 0x11d };
const NUMBERS = new Map(Object.entries(MODULI).map(([name, modulus]) => [modulus & 255, name]));
const [NAME, HEAD, SUM, IDENTITY] = ["share-1-", 11, 8, 8];
/** How many bytes a secret has at most, as the program has it. */
export const SECRET_LIMIT = 65536;
// How many bytes are drawn at once: browsers give no more.
const DRAWN = 65536;

/** Why text says no secret; `line` is counted from 1, where it is of one line. */
export class ShareTextError extends Error {
  constructor(message, code, line) {
    super(message);
    this.name = "ShareTextError";
    this.code = code;
    this.line = line;
  }
}

// So many bytes from the system's source for keys. It is asked anew for each secret.
function drawn(count) {
  const bytes = new Uint8Array(count);
  for (let at = 0; at < count; at += DRAWN) globalThis.crypto.getRandomValues(bytes.subarray(at, at + DRAWN));
  return bytes;
}

function modulusOf(field) {
  if (!Object.hasOwn(MODULI, field)) throw new RangeError(`the field is ${String(field)}, and not aes or gfshare`);
  return MODULI[field];
}

function checkBytes(value, what) {
  if (typeOfArray(value) !== "Uint8Array") throw new TypeError(`${what} is ${describe(value)}, and not a Uint8Array`);
}

/** The calls that share secrets. Draws are those of `crypto.getRandomValues`. */
export function secretsOf(library) {
  const split = (secret, shares, needed, { field = "aes" } = {}) => {
    const modulus = modulusOf(field);
    checkBytes(secret, "the secret");
    const [count, few] = [shares, needed].map((it, at) => Number(wholeNumber(it, 32, at ? "needed" : "shares")));
    // A library that has no such code says so before there are draws or room for shares.
    if (!(2 <= few && few <= count && count <= 255)) throw new BinaryFieldError("secret_split", 4);
    const size = lengthOf(secret);
    const draws = drawn((few - 1) * size);
    const all = new Uint8Array(count * size);
    try {
      library.call("secret_split", modulus, few, count, secret, draws, all);
    } finally {
      draws.fill(0);
    }
    return Array.from({ length: count }, (_, at) => ({
      index: at + 1,
      bytes: all.slice(at * size, at * size + size)
    }));
  };
  const combine = (shares, needed, { field = "aes" } = {}) => {
    const modulus = modulusOf(field);
    const list = [...shares];
    for (const { bytes } of list) checkBytes(bytes, "a share");
    const size = list.length ? lengthOf(list[0].bytes) : 0;
    const [indexes, all] = [new Uint8Array(list.length), new Uint8Array(list.length * size)];
    list.forEach(({ index, bytes }, at) => {
      indexes[at] = Number(wholeNumber(index, 8, "an index"));
      if (lengthOf(bytes) !== size) throw new RangeError("the shares do not have one length");
      all.set(bytes, at * size);
    });
    const secret = new Uint8Array(size);
    library.call("secret_combine", modulus, needed, indexes, all, secret);
    return secret;
  };
  return Object.freeze({
    /** So many shares of a secret, any `needed` of which restore it: their indexes, from 1, and their bytes. */
    split,
    /** The secret of shares, of which `needed` are needed. Of more all have to be those of one secret. */
    combine,
    /** The shares as lines of text, which the program `secret` combines. */
    splitToText(secret, shares, needed, { field = "aes" } = {}) {
      const identity = drawn(IDENTITY);
      const made = split(secret, shares, needed, { field });
      return made.map(({ index, bytes }) => lineOf(field, Number(needed), index, identity, bytes)).join("");
    },
    /** The secret of lines of shares, in any order, empty lines among them. A line that is wrong is named. */
    combineText(text) {
      const { field, needed, shares } = sharesOf(text);
      try {
        return combine(shares, needed, { field });
      } catch (error) {
        if (!(error instanceof BinaryFieldError)) throw error;
        throw new ShareTextError(reasonOf(shares, needed), error.code);
      }
    },
  });
}

// Why shares of one set are not combined, in the words of the program.
function reasonOf(shares, needed) {
  const indexes = shares.map((it) => it.index);
  if (needed < 2) return "at least two shares have to be needed";
  if (shares.length < needed) return "there are fewer shares than are needed";
  if (shares.length > 255) return "there are at most 255 shares";
  if (indexes.includes(0)) return "a share has the index 0";
  if (new Set(indexes).size < indexes.length) return "two shares have one index";
  return "a share is wrong, or is of another secret";
}

function lineOf(field, needed, index, identity, share) {
  const record = Uint8Array.of(MODULI[field] & 255, needed, index, ...identity, ...share);
  return `${NAME}${hex(record)}${hex(sha256(record).subarray(0, SUM))}\n`;
}

// The record of a line.
function recordOf(line, number) {
  const noShare = new ShareTextError(`line ${number} is no share`, "NO_SHARE", number);
  const mistyped = new ShareTextError(
    `the share in line ${number} is mistyped: its check sum is another`, "MISTYPED", number
  );
  if (!line.startsWith(NAME)) throw noShare;
  const digits = line.slice(NAME.length);
  if (digits.length % 2 || /[^0-9a-f]/i.test(digits)) throw mistyped;
  const bytes = Uint8Array.from(digits.match(/../g) ?? [], (it) => parseInt(it, 16));
  if (bytes.length <= HEAD + SUM) throw noShare;
  const record = bytes.subarray(0, -SUM);
  if (hex(sha256(record).subarray(0, SUM)) !== hex(bytes.subarray(-SUM))) throw mistyped;
  if (!NUMBERS.has(record[0])) throw noShare;
  return record;
}

/** The shares that a text says, one a line: their field, how many are needed, and each index and bytes. */
export function sharesOf(text) {
  const shares = [];
  let first;
  text.split("\n").forEach((line, at) => {
    if (line === "") return;
    const record = recordOf(line, at + 1);
    first ??= record;
    const differs = (it, i) => i !== 2 && it !== first[i];
    if (record.length !== first.length || record.subarray(0, HEAD).some(differs)) {
      throw new ShareTextError(`the share in line ${at + 1} is of another set than the first`, "OTHER_SET", at + 1);
    }
    shares.push({ index: record[2], bytes: record.slice(HEAD) });
  });
  if (!first) throw new ShareTextError("there is no share", "NO_SHARE");
  return { field: NUMBERS.get(first[0]), needed: first[1], shares };
}
