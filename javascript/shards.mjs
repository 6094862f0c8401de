// Files split into shards and joined from them, in the format of the program `shards`, version 3. The shards of parity
// and the restored ones are computed by the library; the format, the digests and what is read are not proved here, and
// are tested against the program.
//
// A file of a shard is a head of 104 bytes, the last 32 of which are the SHA-256 of those before, and for each stripe
// of the file a digest of 32 bytes and the shard's bytes in the stripe.
import { hex, Sha256, sha256 } from "./sha256.mjs";
import { piecesOf } from "./streams.mjs";

const NAME = new TextEncoder().encode("shards ");
const FORMAT = 3;
const HEAD = 104;
const DIGEST = 32;
// All shards of a stripe have some 2^24 bytes together.
const STRIPE = 2 ** 24;
const MOST_SHARDS = 65536;
const MATRIX = 1;
const TRANSFORM = 2;

/** Why a file cannot be split, or shards cannot be joined: `code` is LIMITS, NO_SHARDS, TOO_FEW, SEVERAL_FILES or
 * OTHER_CONTENT. */
export class ShardsError extends Error {
  constructor(code, message) {
    super(message);
    this.name = "ShardsError";
    this.code = code;
  }
}

// The least number of parts of so many bytes, one at least.
const parts = (bytes, each) => Math.max(1, Math.ceil(bytes / each));
const totalOf = (origin) => origin.data + origin.parity;
const widthOf = (origin) => origin.data * origin.size;
const stripesOf = (origin) => Math.ceil(origin.length / widthOf(origin));

// Whether a code has so many shards, and the sizes are those of a file of shards.
function isPossible({ code, data, parity, length, size }) {
  const padded = 2 ** Math.ceil(Math.log2(data));
  const hasCode = code === MATRIX
    ? data + parity <= 256
    : code === TRANSFORM && padded + parity <= MOST_SHARDS && size % 2 === 0;
  const isSmall = data + parity <= MOST_SHARDS && size <= STRIPE && length <= 2 ** 53;
  return data > 0 && parity > 0 && size > 0 && hasCode && isSmall;
}

/** How a file of so many bytes is split: the code, and how many bytes each shard has of a stripe. */
export function layoutOf(length, data, parity, identity = new Uint8Array(DIGEST)) {
  const [total, code] = [data + parity, data + parity <= 256 ? MATRIX : TRANSFORM];
  const each = parts(STRIPE, total);
  let size = parts(length, parts(length, each * data) * data);
  if (code === TRANSFORM) size += size % 2;
  const origin = { code, data, parity, length, size, identity };
  if (!Number.isSafeInteger(data) || !Number.isSafeInteger(parity) || !isPossible(origin)) {
    throw new ShardsError(
      "LIMITS",
      `no code has ${data} shards of data and ${parity} of parity: both are at least 1, and together they are few`
    );
  }
  return origin;
}

function headOf(origin, index) {
  const head = new Uint8Array(HEAD);
  const view = new DataView(head.buffer);
  head.set(NAME);
  head[7] = 48 + FORMAT;
  [origin.code, origin.data, origin.parity, index].forEach((it, at) => view.setUint32(8 + 4 * at, it, true));
  view.setBigUint64(24, BigInt(origin.length), true);
  view.setBigUint64(32, BigInt(origin.size), true);
  head.set(origin.identity, 40);
  head.set(sha256(head.subarray(0, HEAD - DIGEST)), HEAD - DIGEST);
  return head;
}

function pieceDigest(head, stripe, shard) {
  const number = new Uint8Array(8);
  new DataView(number.buffer).setBigUint64(0, BigInt(stripe), true);
  return sha256(head.subarray(HEAD - DIGEST), number, shard);
}

const isSame = (left, right) => left.length === right.length && left.every((it, at) => it === right[at]);

/** What the head of a shard's file says, or why it is none. */
function headRead(head) {
  if (head.length < HEAD || !isSame(head.subarray(0, 7), NAME)) return { reason: "is no shard" };
  if (head[7] !== 48 + FORMAT) {
    return { reason: `is a shard in format ${String.fromCharCode(head[7])}, and not ${FORMAT}` };
  }
  if (!isSame(sha256(head.subarray(0, HEAD - DIGEST)), head.subarray(HEAD - DIGEST))) {
    return { reason: "has a damaged head" };
  }
  const view = new DataView(head.buffer, head.byteOffset);
  const [code, data, parity, index] = [8, 12, 16, 20].map((at) => view.getUint32(at, true));
  const [length, size] = [24, 32].map((at) => Number(view.getBigUint64(at, true)));
  const origin = { code, data, parity, length, size, identity: head.slice(40, 72) };
  if (!isPossible(origin) || index >= data + parity) return { reason: "has a head that no split writes" };
  // The shards of one file have this in common.
  const common = `${hex(head.subarray(8, 20))}${hex(head.subarray(24, 72))}`;
  return { origin, index, common, head };
}

const bytesFrom = async (blob, start, end) => new Uint8Array(await blob.slice(start, end).arrayBuffer());

// Writes the shards of parity behind those of data, all of one stripe.
function encode(bf, { code, data, parity, size }, shards) {
  if (code === MATRIX) return void bf.ReedSolomon.encode(data, parity, shards);
  const words = new Uint16Array(shards.buffer, 0, (data * size) / 2);
  shards.set(new Uint8Array(bf.erasure.encode(data, parity, words).buffer), data * size);
}

// Restores the shards of data of a stripe.
function restore(bf, { code, data, parity, size }, shards, present) {
  if (code === MATRIX) return void bf.ReedSolomon.reconstruct(data, parity, shards, present, { dataOnly: true });
  const middle = (data * size) / 2;
  bf.erasure.reconstruct(
    data, parity, new Uint16Array(shards.buffer, 0, middle), new Uint16Array(shards.buffer, 2 * middle), present
  );
}

/** Splits a file, which is a Blob, into files of shards, of which any as many as there are of data restore it.
 * `onProgress` is told how much of the work is done, from 0 to 1; an aborted signal ends it. */
export async function split(bf, file, data, parity, { signal, onProgress } = {}) {
  layoutOf(file.size, data, parity);
  const hash = new Sha256();
  const total = Math.max(1, file.size);
  for await (
    const piece of piecesOf(file, { signal, onProgress: (done) => onProgress?.((0.3 * done) / total) })
  ) hash.update(piece);
  const origin = layoutOf(file.size, data, parity, hash.digest());
  const heads = Array.from({ length: totalOf(origin) }, (_, index) => headOf(origin, index));
  const files = heads.map((head) => [head]);
  for (let stripe = 0; stripe < stripesOf(origin); stripe++) {
    signal?.throwIfAborted();
    const shards = new Uint8Array(totalOf(origin) * origin.size);
    shards.set(await bytesFrom(file, stripe * widthOf(origin), Math.min(file.size, (stripe + 1) * widthOf(origin))));
    encode(bf, origin, shards);
    heads.forEach((head, index) => {
      const shard = shards.subarray(index * origin.size, (index + 1) * origin.size);
      // A browser may put blobs on the disk, and arrays it keeps in memory.
      files[index].push(new Blob([pieceDigest(head, stripe, shard), shard]));
    });
    onProgress?.(0.3 + (0.7 * (stripe + 1)) / stripesOf(origin));
    await turn();
  }
  return { identity: hex(origin.identity), origin, shards: files.map((it) => new Blob(it)) };
}

// Lets messages come in between, such as one that cancels the work.
const turn = () => new Promise((resolve) => setTimeout(resolve, 0));

// The bytes of a shard in a stripe, where they are as they were written.
async function pieceRead(blob, { origin, head }, stripe) {
  const start = HEAD + stripe * (DIGEST + origin.size);
  const piece = await bytesFrom(blob, start, start + DIGEST + origin.size);
  const shard = piece.subarray(DIGEST);
  return shard.length === origin.size && isSame(pieceDigest(head, stripe, shard), piece.subarray(0, DIGEST))
    ? shard
    : null;
}

// The heads of files, those that are shards by what they have in common.
async function headsOf(blobs) {
  const heads = await Promise.all(blobs.map(async (blob) => headRead(await bytesFrom(blob, 0, HEAD))));
  const groups = new Map();
  heads.forEach((it, place) => {
    if (it.reason) return;
    const group = groups.get(it.common) ?? groups.set(it.common, new Map()).get(it.common);
    // Several files may be one shard, each damaged elsewhere.
    group.set(it.index, [...(group.get(it.index) ?? []), place]);
  });
  return { heads, groups: [...groups.values()].sort((left, right) => right.size - left.size) };
}

/** What files are: for each its number among the shards and its damaged stripes, or the reason why it is none. */
export async function inspect(blobs, { signal, onProgress } = {}) {
  const { heads } = await headsOf(blobs);
  const found = [];
  for (const [place, it] of heads.entries()) {
    if (it.reason) {
      found.push({ reason: it.reason });
      continue;
    }
    const damaged = [];
    for (let stripe = 0; stripe < stripesOf(it.origin); stripe++) {
      signal?.throwIfAborted();
      if (!(await pieceRead(blobs[place], it, stripe))) damaged.push(stripe);
    }
    found.push(
      { index: it.index, identity: hex(it.origin.identity), data: it.origin.data, parity: it.origin.parity, damaged }
    );
    onProgress?.((place + 1) / blobs.length);
  }
  return found;
}

// The shards of a stripe that are whole, as many as there are of data; the first files that have them are taken.
async function gather(blobs, heads, group, origin, stripe) {
  const shards = new Uint8Array(totalOf(origin) * origin.size);
  const present = new Uint8Array(totalOf(origin));
  let count = 0;
  for (const [index, places] of [...group].sort(([left], [right]) => left - right)) {
    for (const place of count < origin.data ? places : []) {
      const shard = await pieceRead(blobs[place], heads[place], stripe);
      if (!shard) continue;
      shards.set(shard, index * origin.size);
      present[index] = 1;
      count++;
      break;
    }
  }
  return { shards, present, count };
}

/** Joins a file from files of its shards, whatever their order. It is given only where its SHA-256 is the one that
 * the shards name. */
export async function join(bf, blobs, { signal, onProgress } = {}) {
  const { heads, groups } = await headsOf(blobs);
  const [group, second] = groups;
  if (!group) throw new ShardsError("NO_SHARDS", "none of the files is a shard");
  const { origin } = heads[[...group.values()][0][0]];
  if (second && second.size >= heads[[...second.values()][0][0]].origin.data && group.size >= origin.data) {
    throw new ShardsError("SEVERAL_FILES", "there are enough shards of several files");
  }
  const hash = new Sha256();
  const pieces = [];
  for (let stripe = 0; stripe < stripesOf(origin); stripe++) {
    signal?.throwIfAborted();
    const { shards, present, count } = await gather(blobs, heads, group, origin, stripe);
    if (count < origin.data) {
      throw new ShardsError("TOO_FEW", `${count} shards are whole in stripe ${stripe}, and ${origin.data} are wanted`);
    }
    restore(bf, origin, shards, present);
    const content = shards.subarray(0, Math.min(widthOf(origin), origin.length - stripe * widthOf(origin)));
    hash.update(content);
    pieces.push(new Blob([content]));
    onProgress?.((stripe + 1) / stripesOf(origin));
    await turn();
  }
  if (group.size < origin.data) {
    throw new ShardsError("TOO_FEW", `${group.size} shards are there, and ${origin.data} are wanted`);
  }
  const identity = hash.digest();
  if (!isSame(identity, origin.identity)) {
    throw new ShardsError("OTHER_CONTENT", "the shards give another file than the one that they name");
  }
  return { identity: hex(identity), file: new Blob(pieces) };
}
