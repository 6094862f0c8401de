// The package in node: arithmetic with laws and worked values, what it refuses, streams, and files of shards.
import assert from "node:assert/strict";
import { createHash, randomBytes } from "node:crypto";
import { test } from "node:test";
import fs from "node:fs";
import { BinaryFieldError, load, OutOfMemoryError, version } from "./binary_field/binary_field.mjs";
import { inspect, join, ShardsError, split } from "./binary_field/shards.mjs";
import { hex, sha256 } from "./binary_field/sha256.mjs";

const bf = await load();
const bytes = (count) => new Uint8Array(randomBytes(count));
const fields = bf.fields.map((type) => bf[type]);

/** Elements drawn anew, of which one is 0 and one 1. */
function drawn(field, count) {
  const mask = (1n << BigInt(field.bits)) - 1n;
  return field.array(
    Array.from({ length: count }, (_, at) => (at < 2 ? at : BigInt(`0x${randomBytes(24).toString("hex")}`) & mask))
  );
}

test("the version is that of the package", () => {
  assert.equal(version, JSON.parse(fs.readFileSync(new URL("./binary_field/package.json", import.meta.url))).version);
});

test("worked products", () => {
  assert.equal(bf.Ghash128.multiply(1n << 127n, 2n), 0x87n);
  assert.equal(bf.BinaryField8.multiply(0x10, 0x10), 0x41);
  assert.equal(bf.Rijndael8b.multiply(0x57, 0x83), 0xc1);
  assert.equal(bf.BinaryField128.multiply(1n << 64n, 1n << 64n), (1n << 96n) | 1n);
  assert.equal(bf.Poly192.multiply(1n << 64n, 1n << 128n), (1n << 64n) | 1n);
  assert.equal(bf.Rijndael8b.inverse(0x53), 0xca);
});

test("the laws of each field, over arrays and over single elements", () => {
  for (const field of fields) {
    const [x, y] = [drawn(field, 33), drawn(field, 33)];
    const [products, sums] = [field.multiply(x, y), field.add(x, y)];
    assert.deepEqual(field.multiply(sums, y), field.add(products, field.square(y)), field.type);
    assert.deepEqual(field.squareRoot(field.square(x)), x);
    assert.deepEqual(field.multiply(field.inverse(x), field.square(x)), x);
    assert.deepEqual(field.power(x, 3), field.multiply(field.square(x), x));
    assert.equal(field.dot(x, y), field.elements(products).reduce((sum, it) => field.add(sum, it)));
    assert.equal(
      field.product(x.slice(field.words)),
      field.elements(x).slice(1).reduce((product, it) => field.multiply(product, it))
    );
    const [a, b] = [field.elements(x)[5], field.elements(y)[6]];
    assert.equal(field.multiply(a, b), field.multiply(b, a));
    assert.deepEqual(field.multiply(x, a), field.multiplyBy(x, a));
    assert.deepEqual(field.addScaled(x.slice(), a, y), field.add(x, field.multiply(a, y)));
    assert.equal(field.evaluate(x, 0), field.elements(x)[0]);
    assert.deepEqual(field.array(field.elements(x)), x);
    assert.equal(field.multiply(field.generator, field.inverse(field.generator)), field.bits < 64 ? 1 : 1n);
    // What is written may be what is read.
    const own = x.slice();
    assert.equal(field.multiply(own, y, { out: own }), own);
    assert.deepEqual(own, products);
    const shared = x.slice();
    field.multiply(
      shared.subarray(0, 8 * field.words),
      shared.subarray(field.words, 9 * field.words),
      { out: shared.subarray(2 * field.words, 10 * field.words) }
    );
    assert.deepEqual(
      shared.slice(2 * field.words, 10 * field.words),
      field.multiply(x.slice(0, 8 * field.words), x.slice(field.words, 9 * field.words))
    );
  }
});

test("transforms, changes of basis and matrices", () => {
  for (const field of fields.filter((it) => /^(t16|t32|t64|t128|g128)$/.test(it.name))) {
    const coefficients = drawn(field, 64);
    const values = field.transform(coefficients, 5);
    assert.deepEqual(field.inverseTransform(values, 5), coefficients);
    assert.notDeepEqual(values, coefficients);
  }
  const x = drawn(bf.BinaryField128, 9);
  const image = bf.BinaryField128.toPartner(x);
  assert.deepEqual(bf.Ghash128.toPartner(image), x);
  assert.deepEqual(bf.Ghash128.square(image), bf.BinaryField128.toPartner(bf.BinaryField128.square(x)));
  for (const field of fields) {
    const unit = field.array([1, 1, 0, 1]);
    assert.deepEqual(field.matrix.multiply(unit, field.matrix.inverse(unit, 2), 2, 2, 2), field.array([1, 0, 0, 1]));
    assert.equal(field.matrix.rank(unit, 2, 2), 2);
    assert.equal(Number(field.matrix.determinant(unit, 2)), 1);
    assert.deepEqual(field.matrix.solve(unit, 2, 2, field.array([0, 1])), field.array([1, 1]));
    assert.deepEqual(
      field.matrix.rowReduce(field.array([0, 1, 0, 1]), 2, 2), { matrix: field.array([0, 1, 0, 0]), pivots: [1] }
    );
  }
});

test("hashes, whole, in pieces and of streams", async () => {
  const key = Buffer.from("66e94bd4ef8a2c3b884cfa59ca342b2e", "hex");
  const own = new Uint8Array(key);
  const text = new Uint8Array(Buffer.from("0388dace60b6a392f328c2b971b2fe78", "hex"));
  assert.equal(hex(bf.tags.gcmGhash(own, new Uint8Array(0), text)), "f38cbb1ad69223dcc3457ae5b6b0f885");
  const message = bytes(5000);
  const hashes = [
    ["ghash", bf.tags.Ghash, bf.tags.ghashOfStream],
    ["polyval", bf.tags.Polyval, bf.tags.polyvalOfStream],
  ];
  for (const [name, Pieces, ofStream] of hashes) {
    const whole = bf.tags[name](own, message);
    assert.deepEqual(new Pieces(own).update(message.subarray(0, 77)).update(message.subarray(77)).digest(), whole);
    assert.deepEqual(await ofStream(own, new Blob([message])), whole);
    assert.deepEqual(await ofStream(own, new Blob([message]).stream()), whole);
    assert.deepEqual(await ofStream(own, [message.subarray(0, 1), message.subarray(1)]), whole);
  }
  assert.equal(bf.tags.equal(own, own.slice()), true);
  assert.equal(bf.tags.equal(own, text), false);
  let isCancelled = false;
  const endless = new ReadableStream({ pull: (it) => it.enqueue(message), cancel: () => void (isCancelled = true) });
  const controller = new AbortController();
  let pieces = 0;
  const options = { signal: controller.signal, onProgress: () => ++pieces === 3 && controller.abort() };
  await assert.rejects(bf.tags.ghashOfStream(own, endless, options), { name: "AbortError" });
  assert.ok(isCancelled);
});

test("codes", () => {
  const shards = new Uint8Array(6 * 100);
  shards.set(bytes(400));
  bf.ReedSolomon.encode(4, 2, shards);
  assert.ok(bf.ReedSolomon.verify(4, 2, shards));
  const damaged = shards.slice().fill(7, 0, 200);
  assert.ok(!bf.ReedSolomon.verify(4, 2, damaged));
  assert.deepEqual(bf.ReedSolomon.reconstruct(4, 2, damaged, [false, false, true, true, 1, 1]), shards);
  const words = Uint16Array.from({ length: 3 * 8 }, (_, at) => at * 2000);
  const parity = bf.erasure.encode(3, 2, words);
  assert.ok(bf.erasure.verify(3, 2, words, parity));
  const lost = words.slice().fill(9, 0, 16);
  bf.erasure.reconstruct(3, 2, lost, parity, [0, 0, 1, 1, 1]);
  assert.deepEqual(lost, words);
  assert.throws(() => bf.ReedSolomon.reconstruct(4, 2, damaged, [0, 0, 0, 1, 1, 1]), { code: "BF_TOO_FEW_SHARDS" });
});

test("codes that correct errors", () => {
  const dvb = bf.correcting.overBytes({ symbols: 204, data: 188 });
  // The field of PAR2, and that of 16 elements, whose words are those of bits below.
  const wide = bf.correcting.overField({ degree: 16, tail: 0x100b, symbols: 20, data: 12 });
  const bits = bf.correcting.binary({ bits: 15, errors: 3, rootStep: 17 });
  assert.deepEqual([dvb.data, wide.symbols, bits.data], [188, 20, 5]);
  for (const [code, words] of [[dvb, new Uint8Array(408)], [wide, new Uint16Array(40)], [bits, new Uint8Array(30)]]) {
    const sent = code.encode(words.map((_, at) => (code === bits ? at % 2 : at)));
    const read = sent.slice();
    read[1] ^= 1;
    read[code.symbols - 1] ^= 1;
    assert.deepEqual(code.areWords(read), [false, true]);
    assert.deepEqual(code.correct(read), [2, 0]);
    assert.deepEqual(read, sent);
    const erased = sent.map((_, at) => (at < 6 ? 1 : 0));
    const torn = sent.map((it, at) => (at < 6 ? 0 : it));
    code.correct(torn, erased);
    assert.deepEqual(torn, sent);
    assert.deepEqual(code.correct(sent.slice(), sent.map(() => 1)), [-1, -1]);
  }
  // As libfec 1.0 writes it.
  const data = [0x9e3e, 0x3c75, 0xdaac, 0x78e3, 0x171a, 0xb551, 0x5388, 0xf1bf, 0x8ff6, 0x2e2d, 0xcc64, 0x6a9b];
  const checks = [0x9824, 0x2364, 0x04f9, 0xf876, 0x097f, 0x40e2, 0xc20c, 0xcb02];
  assert.deepEqual([...wide.encode(Uint16Array.of(...data, 0, 0, 0, 0, 0, 0, 0, 0)).slice(12)], checks);
  assert.throws(() => bf.correcting.overBytes({ symbols: 256, data: 3 }), { code: "BF_CODE" });
  assert.throws(() => bf.correcting.overField({ degree: 4, tail: 3, symbols: 16, data: 3 }), { code: "BF_CODE" });
  assert.throws(() => bf.correcting.overField({ degree: 4, tail: 5, symbols: 5, data: 3 }), { code: "BF_REDUCIBLE" });
  assert.throws(() => bf.correcting.binary({ bits: 16, errors: 3, rootStep: 17 }), { code: "BF_CODE" });
  assert.throws(() => bits.encode(new Uint8Array(15).fill(2)), { code: "BF_NOT_AN_ELEMENT" });
  assert.throws(() => wide.correct(new Uint16Array(21)), { code: "BF_LENGTH" });
});

test("shares of a secret", () => {
  const secret = bytes(100);
  for (const field of ["aes", "gfshare"]) {
    const shares = bf.secrets.split(secret, 7, 4, { field });
    assert.deepEqual(shares.map((it) => it.index), [1, 2, 3, 4, 5, 6, 7]);
    for (const left of [shares.slice(3), shares.slice(0, 4), [...shares].reverse()]) {
      assert.deepEqual(bf.secrets.combine(left, 4, { field }), secret);
    }
    // A wrong byte among more than are needed is told, and draws are others each time.
    shares[5].bytes[9] ^= 1;
    assert.throws(() => bf.secrets.combine(shares, 4, { field }), { code: "BF_UNSOLVABLE" });
    assert.throws(() => bf.secrets.combine(shares.slice(0, 3), 4, { field }), { code: "BF_TOO_FEW_SHARDS" });
    assert.notDeepEqual(bf.secrets.split(secret, 7, 4, { field })[0].bytes, shares[0].bytes);
  }
  const long = bytes(65_536);
  assert.deepEqual(bf.secrets.combine(bf.secrets.split(long, 255, 2), 2), long);
  const text = bf.secrets.splitToText(secret, 5, 3);
  const lines = text.split("\n");
  assert.deepEqual(bf.secrets.combineText(`\n${lines.slice(1, 4).reverse().join("\n\n")}`), secret);
  assert.match(text, /^share-1-1b0301/);
  const again = bf.secrets.splitToText(secret, 5, 3).split("\n");
  for (
    const [given, code, line] of [
      [["", ""], "NO_SHARE", undefined],
      [[lines[0], "share-2-1b"], "NO_SHARE", 2],
      [[lines[0], lines[1], lines[2].slice(0, -1)], "MISTYPED", 3],
      [[lines[0], lines[1].replace(/.$/, (it) => (it === "0" ? "1" : "0"))], "MISTYPED", 2],
      [[lines[0], again[1]], "OTHER_SET", 2],
      [lines.slice(0, 2), "BF_TOO_FEW_SHARDS", undefined],
      [[lines[0], lines[1], lines[1]], "BF_CODE", undefined],
    ]
  ) assert.throws(() => bf.secrets.combineText(given.join("\n")), { name: "ShareTextError", code, line });
});

test("lines", () => {
  for (
    const [line, answer] of [
      ["t8 mul 10 10", "41"], ["r8 mul 57 83", "c1"], ["t8 inv 00", "none"], ["", "error 1"], ["é", "error 1"],
    ]
  ) assert.equal(bf.answer(line), answer);
  assert.equal(bf.answer(Uint8Array.of(0xff)), "error 6");
});

// What a call is refused for, with what it throws; nothing of it reaches the module's memory but copies.
const detached = () => {
  const array = new Uint8Array(16);
  structuredClone(array.buffer, { transfer: [array.buffer] });
  return array;
};
const [T8, G128, GF2] = [bf.BinaryField8, bf.Ghash128, bf.Gf2];
const eight = () => new Uint8Array(8);
const sharesAt = (...indexes) => indexes.map((index) => ({ index, bytes: eight() }));
const liar = Object.defineProperty(eight(), "length", { value: 1 << 20 });
const MISUSES = [
  ["an array of another type", () => T8.multiply(new Uint16Array(8), eight()), TypeError],
  ["a plain list", () => T8.multiply([1, 2], [3, 4]), TypeError],
  ["nothing", () => T8.multiply(), TypeError],
  ["null", () => T8.multiply(null, eight()), TypeError],
  ["a text", () => T8.square("12"), TypeError],
  ["an object with a length", () => T8.square({ length: 8 }), TypeError],
  ["a DataView", () => T8.square(new DataView(new ArrayBuffer(8))), TypeError],
  ["a proxy of an array", () => T8.square(new Proxy(eight(), {})), TypeError],
  ["an object with the prototype of arrays", () => T8.square(Object.create(Uint8Array.prototype)), TypeError],
  ["a detached array", () => T8.square(detached()), TypeError],
  ["a detached array to write to", () => T8.square(eight(), { out: detached() }), TypeError],
  ["arrays of unlike lengths", () => T8.multiply(eight(), new Uint8Array(9)), { code: "BF_LENGTH" }],
  [
    "an array to write to of another length",
    () => T8.square(eight(), { out: new Uint8Array(9) }),
    { code: "BF_LENGTH" }
  ],
  ["an array to write to of another type", () => T8.square(eight(), { out: new Uint16Array(8) }), TypeError],
  ["half an element", () => G128.square(new BigUint64Array(3)), RangeError],
  ["a word that is no element", () => GF2.add(Uint8Array.of(2), Uint8Array.of(1)), { code: "BF_NOT_AN_ELEMENT" }],
  ["a scalar that is no element", () => GF2.multiply(Uint8Array.of(1), 2), RangeError],
  ["NaN", () => T8.multiply(NaN, 1), RangeError],
  ["infinity", () => T8.multiply(eight(), Infinity), RangeError],
  ["a fraction", () => T8.multiply(1.5, 1), RangeError],
  ["a negative number", () => T8.multiply(eight(), -1), RangeError],
  ["a negative BigInt", () => G128.multiply(-1n, 1n), RangeError],
  ["an element above the field", () => G128.multiply(1n << 128n, 1n), RangeError],
  ["a number that is not exact", () => G128.multiply(2 ** 60, 1n), RangeError],
  ["a negative exponent", () => T8.power(eight(), -1), RangeError],
  ["an exponent above 64 bits", () => T8.power(eight(), 1n << 64n), RangeError],
  ["negative counts", () => bf.ReedSolomon.encode(-1, 2, eight()), RangeError],
  ["counts that are NaN", () => bf.ReedSolomon.encode(NaN, 2, eight()), RangeError],
  ["counts that are texts", () => bf.ReedSolomon.encode("4", 2, eight()), TypeError],
  ["no code of such counts", () => bf.ReedSolomon.encode(300, 2, eight()), { code: "BF_CODE" }],
  ["huge counts", () => bf.ReedSolomon.encode((1n << 64n) - 1n, 1, eight()), { code: "BF_CODE" }],
  ["shards of no size", () => bf.ReedSolomon.encode(4, 2, eight()), { code: "BF_LENGTH" }],
  ["flags that are no list", () => bf.ReedSolomon.reconstruct(2, 2, eight(), 5), TypeError],
  ["too many flags", () => bf.ReedSolomon.reconstruct(2, 2, eight(), [1, 1, 1, 1, 1]), { code: "BF_LENGTH" }],
  ["a transform of no power of two", () => G128.transform(new BigUint64Array(6)), { code: "BF_LENGTH" }],
  ["a transform that the library lacks", () => T8.transform(eight()), TypeError],
  ["a key of another length", () => bf.tags.ghash(eight(), eight()), { code: "BF_LENGTH" }],
  ["a matrix of huge size", () => T8.matrix.inverse(eight(), 2 ** 31), RangeError],
  ["a matrix without an inverse", () => T8.matrix.inverse(new Uint8Array(4), 2), { code: "BF_UNSOLVABLE" }],
  ["zeros of a huge number", () => T8.zeros(2 ** 45), RangeError],
  ["a line that is a number", () => bf.answer(5), TypeError],
  ["a secret that is a text", () => bf.secrets.split("key", 5, 3), TypeError],
  ["an empty secret", () => bf.secrets.split(new Uint8Array(0), 5, 3), { code: "BF_LENGTH" }],
  ["one share needed", () => bf.secrets.split(eight(), 5, 1), { code: "BF_CODE" }],
  ["more shares needed than there are", () => bf.secrets.split(eight(), 5, 6), { code: "BF_CODE" }],
  ["256 shares", () => bf.secrets.split(eight(), 256, 3), { code: "BF_CODE" }],
  ["a field that is none", () => bf.secrets.split(eight(), 5, 3, { field: "toString" }), RangeError],
  [
    "shares of unlike lengths",
    () => bf.secrets.combine([{ index: 1, bytes: eight() }, { index: 2, bytes: new Uint8Array(9) }], 2),
    RangeError
  ],
  ["a share at index 0", () => bf.secrets.combine(sharesAt(0, 1), 2), { code: "BF_CODE" }],
  ["an index above 255", () => bf.secrets.combine(sharesAt(256, 1), 2), RangeError],
  ["shares that are no list", () => bf.secrets.combine(5, 2), TypeError],
  ["a function that is not there", () => bf.call("t8_divide", eight(), eight()), TypeError],
  ["another number of arguments", () => bf.call("t8_square", eight()), TypeError],
];

test("misuse", async (t) => {
  for (const [name, act, wanted] of MISUSES) {
    await t.test(name, () => {
      const before = bf.memoryBytes();
      assert.throws(act, wanted);
      assert.equal(bf.memoryBytes(), before);
    });
  }
});

test("an array that lies about its length is taken as long as it is", () => {
  assert.equal(T8.square(liar).length, 8);
});

test("a refused call leaves what it was given", () => {
  const [out, sums] = [eight().fill(5), Uint8Array.of(1, 0, 1)];
  assert.throws(() => T8.multiply(eight(), new Uint8Array(9), { out }), BinaryFieldError);
  assert.throws(() => GF2.addScaled(sums, 1, Uint8Array.of(0, 1, 2)), BinaryFieldError);
  assert.deepEqual([[...out], [...sums]], [[5, 5, 5, 5, 5, 5, 5, 5], [1, 0, 1]]);
});

test("memory that may not grow", async () => {
  const small = await load(bf.module, { maximumBytes: 3 << 20 });
  const large = new Uint8Array(2 << 20).fill(3);
  const before = small.memoryBytes();
  assert.throws(
    () => small.BinaryField8.square(large),
    (error) => error instanceof OutOfMemoryError && error.bytes > 3 << 20 && /bytes/.test(error.message)
  );
  assert.equal(small.memoryBytes(), before);
  assert.deepEqual(small.BinaryField8.square(large.subarray(0, 9)), bf.BinaryField8.square(large.subarray(0, 9)));
});

test("no module, and another one", async () => {
  await assert.rejects(load(new Uint8Array([0, 97, 115, 109, 1, 0, 0, 0])), TypeError);
  await assert.rejects(load(new Uint8Array(4)), WebAssembly.CompileError);
  await assert.rejects(load("file:///no/such/file"), { code: "ENOENT" });
});

test("SHA-256", () => {
  for (const count of [0, 1, 55, 56, 63, 64, 65, 119, 120, 1000]) {
    const message = bytes(count);
    assert.equal(
      hex(sha256(message.subarray(0, 9), message.subarray(9))), createHash("sha256").update(message).digest("hex")
    );
  }
});

test("files of shards", async () => {
  const shapes = [[0, 1, 1], [1, 2, 1], [5000, 4, 2], [100_003, 10, 4], [300, 255, 1], [9000, 200, 100]];
  for (const [length, data, parity] of [...shapes, [40_000_000, 4, 2]]) {
    const content = bytes(length);
    const done = [];
    const { shards, identity } = await split(
      bf, new Blob([content]), data, parity, { onProgress: (it) => done.push(it) }
    );
    assert.equal(identity, createHash("sha256").update(content).digest("hex"));
    assert.equal(shards.length, data + parity);
    assert.ok(length === 0 || done.at(-1) === 1);
    // The last ones first, the first ones lost, and the one that is then first overwritten where one more may be lost.
    const left = shards.slice(parity > 1 ? parity - 1 : parity).reverse();
    if (parity > 1 && length) {
      left[left.length - 1] = new Blob([left.at(-1).slice(0, 120), Uint8Array.of(1, 2, 3), left.at(-1).slice(123)]);
    }
    const joined = await join(bf, left);
    assert.equal(joined.identity, identity);
    assert.deepEqual(new Uint8Array(await joined.file.arrayBuffer()), content);
    const few = shards.slice(0, data - 1);
    if (length) {
      await assert.rejects(
        join(bf, few), (error) => error instanceof ShardsError && /TOO_FEW|NO_SHARDS/.test(error.code)
      );
    }
  }
  const { shards } = await split(bf, new Blob([bytes(50_000)]), 3, 2);
  const other = (await split(bf, new Blob([bytes(50_000)]), 3, 2)).shards;
  const found = await inspect([shards[2], new Blob(["no shard"]), new Blob([shards[0].slice(0, 200)])]);
  assert.deepEqual([found[0].index, found[0].damaged, found[1].reason, found[2].damaged], [2, [], "is no shard", [0]]);
  await assert.rejects(join(bf, [...shards, ...other]), { code: "SEVERAL_FILES" });
  assert.equal((await join(bf, [other[0], ...shards])).file.size, 50_000);
  await assert.rejects(join(bf, [new Blob(["x"])]), { code: "NO_SHARDS" });
  await assert.rejects(split(bf, new Blob(["x"]), 0, 2), { code: "LIMITS" });
  await assert.rejects(split(bf, new Blob(["x"]), 65_000, 1000), { code: "LIMITS" });
  const controller = new AbortController();
  const cancelled = split(
    bf,
    new Blob([bytes(40_000_000)]),
    4,
    2,
    { signal: controller.signal, onProgress: (done) => done > 0.3 && controller.abort() }
  );
  await assert.rejects(cancelled, { name: "AbortError" });
});
