// The rows of bench/module.mjs, in node and in a browser: each call of a module as bench/module.c makes it of the library.
const BYTES = 14 * 65536;
const PAGE = 65536;
const LEAST = 2;

function draw(bytes, seed) {
  for (let at = 0; at < bytes.length; at++) {
    seed = (Math.imul(seed, 1664525) + 1013904223) >>> 0;
    bytes[at] = seed >>> 24;
  }
}

/** For each row its name, the nanoseconds an element (the least of some samples) and the sum of the bytes that were written. */
export async function measure(module, samples) {
  const { exports } = await WebAssembly.instantiate(module, {});
  const { memory } = exports;
  const start = BigInt(memory.buffer.byteLength);
  const pages = Math.ceil((3 * BYTES + 64) / PAGE);
  try {
    memory.grow(BigInt(pages));
  } catch {
    // Engines that had such memories early take a number here.
    memory.grow(pages);
  }
  const [left, right, out, scalar] = [0, 1, 2, 3].map((it) => start + BigInt(it * BYTES));
  const view = (place, length = BYTES) => new Uint8Array(memory.buffer, Number(place), length);
  new BigUint64Array(memory.buffer, Number(scalar), 2).set([0x0123456789abcdefn, 0xfedcba9876543210n]);
  const pair = (name) => [name, (n) => exports[`bf_${name}`](left, n, right, n, out, n)];
  const rows = [
    ["t8_multiply_by", (n) => exports.bf_t8_multiply_by(left, n, 0x53, out, n), 65536],
    ["t16_multiply_by", (n) => exports.bf_t16_multiply_by(left, n, 0x5377, out, n), 32768],
    ["g128_multiply_by", (n) => exports.bf_g128_multiply_by(left, n, scalar, out, n), 1024],
    [...pair("t8_multiply"), 4096],
    ...["t16_multiply", "t64_multiply", "t128_multiply", "p64_multiply", "g128_multiply"].map((it) => [...pair(it), 1024]),
    ["rs_encode", (n) => exports.bf_rs_encode(10n, 4n, left, (n / 10n) * 14n), 655360],
    ["tag_ghash", (n) => exports.bf_tag_ghash(right, 16n, left, n, out, 16n), 65536],
  ];
  return rows.map(([name, call, count]) => {
    draw(view(left), 1);
    draw(view(right), 2);
    view(out).fill(0);
    const length = BigInt(count);
    let least = Infinity;
    for (let sample = 0; sample < samples; sample++) {
      let turns = 0;
      let taken;
      const begun = performance.now();
      do {
        if (call(length)) throw new Error(`${name} is refused`);
        turns++;
        taken = performance.now() - begun;
      } while (taken < LEAST);
      least = Math.min(least, taken / turns);
    }
    const sum = [left, out].reduce((total, place) => view(place).reduce((before, it) => before + it, total), 0);
    return { name, each: (least * 1e6) / count, sum };
  });
}
