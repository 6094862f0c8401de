// SHA-256 (FIPS 180-4) of bytes that come in pieces. The digests that browsers have take a whole message at once, and
// only on pages that came by HTTPS or from this machine. This is tested, and not proved.

// The first 32 bits of the fractional parts of the cube roots of the first 64 primes, and of the square roots of the
// first eight.
const primes = [];
for (let it = 2; primes.length < 64; it++) if (primes.every((prime) => it % prime)) primes.push(it);

/** The first 32 bits of the fractional part of a root of a number, by whole numbers: the root of number * 2^(32
 * degree). */
function fraction(number, degree) {
  const wanted = BigInt(number) << BigInt(32 * degree);
  let root = 0n;
  for (let bit = 1n << 36n; bit; bit >>= 1n) if ((root | bit) ** BigInt(degree) <= wanted) root |= bit;
  return Number(root & 0xffffffffn);
}
// (words with a sign stay small integers in every engine)
const ROUNDS = Int32Array.from(primes, (it) => fraction(it, 3));
const START = Int32Array.from(primes.slice(0, 8), (it) => fraction(it, 2));
const BLOCK = 64;

export class Sha256 {
  #state = START.slice();
  #schedule = new Int32Array(64);
  #rest = new Uint8Array(BLOCK);
  #count = 0;

  /** Adds bytes to the message. */
  update(bytes) {
    let at = 0;
    const held = this.#count % BLOCK;
    this.#count += bytes.length;
    if (held) {
      at = Math.min(BLOCK - held, bytes.length);
      this.#rest.set(bytes.subarray(0, at), held);
      if (held + at < BLOCK) return this;
      this.#block(this.#rest, 0);
    }
    for (; at + BLOCK <= bytes.length; at += BLOCK) this.#block(bytes, at);
    this.#rest.set(bytes.subarray(at), 0);
    return this;
  }

  /** The digest of the message, which has 32 bytes. Nothing can be added behind it. */
  digest() {
    const bits = BigInt(this.#count) * 8n;
    const held = this.#count % BLOCK;
    const end = new Uint8Array(held < 56 ? BLOCK : 2 * BLOCK);
    end.set(this.#rest.subarray(0, held));
    end[held] = 0x80;
    new DataView(end.buffer).setBigUint64(end.length - 8, bits);
    for (let at = 0; at < end.length; at += BLOCK) this.#block(end, at);
    const result = new DataView(new ArrayBuffer(32));
    this.#state.forEach((word, at) => result.setInt32(4 * at, word));
    return new Uint8Array(result.buffer);
  }

  #block(bytes, start) {
    const w = this.#schedule;
    for (let t = 0, at = start; t < 16; t++, at += 4) {
      w[t] = (bytes[at] << 24) | (bytes[at + 1] << 16) | (bytes[at + 2] << 8) | bytes[at + 3];
    }
    for (let t = 16; t < 64; t++) {
      const x = w[t - 15];
      const y = w[t - 2];
      const low = ((x >>> 7) | (x << 25)) ^ ((x >>> 18) | (x << 14)) ^ (x >>> 3);
      const high = ((y >>> 17) | (y << 15)) ^ ((y >>> 19) | (y << 13)) ^ (y >>> 10);
      w[t] = (w[t - 16] + low + w[t - 7] + high) | 0;
    }
    const s = this.#state;
    let [a, b, c, d, e, f, g, h] = s;
    for (let t = 0; t < 64; t++) {
      const upper = ((e >>> 6) | (e << 26)) ^ ((e >>> 11) | (e << 21)) ^ ((e >>> 25) | (e << 7));
      const first = (h + upper + ((e & f) ^ (~e & g)) + ROUNDS[t] + w[t]) | 0;
      const lower = ((a >>> 2) | (a << 30)) ^ ((a >>> 13) | (a << 19)) ^ ((a >>> 22) | (a << 10));
      const second = (lower + ((a & b) ^ (a & c) ^ (b & c))) | 0;
      h = g;
      g = f;
      f = e;
      e = (d + first) | 0;
      d = c;
      c = b;
      b = a;
      a = (first + second) | 0;
    }
    s[0] += a;
    s[1] += b;
    s[2] += c;
    s[3] += d;
    s[4] += e;
    s[5] += f;
    s[6] += g;
    s[7] += h;
  }
}

/** The digest of some pieces, one after the other. */
export function sha256(...pieces) {
  return pieces.reduce((hash, it) => hash.update(it), new Sha256()).digest();
}

/** Bytes as hexadecimal digits. */
export const hex = (bytes) => Array.from(bytes, (it) => it.toString(16).padStart(2, "0")).join("");
