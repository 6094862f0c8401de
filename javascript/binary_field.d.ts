// The types of the package. Those of the fields by their names are in fields.d.ts.
import type { Fields } from "./fields";

/** The arrays that elements stand in. In a BigUint64Array an element of 128 bits has two words and one of 192 bits
 * three, the lowest first. */
export type Words = Uint8Array | Uint16Array | Uint32Array | BigUint64Array;
/** A whole number that is not negative. */
export type Count = number | bigint;

/** Where a result goes that is an array; it may be one of the arrays that are read. */
export interface Written<A extends Words> {
  readonly out?: A;
}

/** A field, with arrays of A and elements of E. Where an element is read, a number and a BigInt both will do. */
export interface Field<A extends Words, E extends number | bigint> {
  readonly name: string;
  readonly type: string;
  readonly bits: number;
  readonly about: string;
  readonly words: number;
  readonly Array: { new (length: number): A; from(values: A): A };
  readonly matrix: Matrices<A, E>;
  readonly generator: E;
  zeros(count: Count): A;
  array(elements: Iterable<Count>): A;
  elements(array: A): E[];
  count(array: A): number;
  add(left: Count, right: Count): E;
  add(left: A, right: A, options?: Written<A>): A;
  multiply(left: Count, right: Count): E;
  multiply(left: A, right: A | Count, options?: Written<A>): A;
  multiply(left: Count, right: A, options?: Written<A>): A;
  multiplyBy(values: A, scalar: Count, options?: Written<A>): A;
  addScaled(sums: A, scalar: Count, values: A): A;
  square(value: Count): E;
  square(values: A, options?: Written<A>): A;
  inverse(value: Count): E;
  inverse(values: A, options?: Written<A>): A;
  squareRoot(value: Count): E;
  squareRoot(values: A, options?: Written<A>): A;
  power(value: Count, exponent: Count): E;
  power(values: A, exponent: Count, options?: Written<A>): A;
  product(values: A): E;
  dot(left: A, right: A): E;
  evaluate(coefficients: A, point: Count): E;
  evaluate(coefficients: A, points: A, options?: Written<A>): A;
  transform(coefficients: A, shift?: Count, options?: Written<A>): A;
  inverseTransform(values: A, shift?: Count, options?: Written<A>): A;
  toPartner(value: Count): E;
  toPartner(values: A, options?: Written<A>): A;
}

/** Matrices over a field, whose elements stand row after row. */
export interface Matrices<A extends Words, E extends number | bigint> {
  multiply(left: A, right: A, rows: Count, inner: Count, columns: Count): A;
  rowReduce(matrix: A, rows: Count, columns: Count): { matrix: A; pivots: number[] };
  rank(matrix: A, rows: Count, columns: Count): number;
  determinant(matrix: A, size: Count): E;
  inverse(matrix: A, size: Count): A;
  solve(matrix: A, rows: Count, columns: Count, right: A): A;
}

/** A hash of a message in pieces. It tells the key. */
export interface Pieces {
  update(message: Uint8Array): this;
  pad(): this;
  digest(): Uint8Array;
}

/** What ends work that takes long, and is told how much of it is done. */
export interface Progress {
  readonly signal?: AbortSignal;
  readonly onProgress?: (done: number) => void;
}

export type Source = Blob | ReadableStream<Uint8Array> | Iterable<Uint8Array> | AsyncIterable<Uint8Array>;

/** Hashes of authentication tags under a key of 16 bytes. */
export interface Tags {
  ghash(key: Uint8Array, message: Uint8Array): Uint8Array;
  polyval(key: Uint8Array, message: Uint8Array): Uint8Array;
  gcmGhash(key: Uint8Array, associated: Uint8Array, ciphertext: Uint8Array): Uint8Array;
  equal(left: Uint8Array, right: Uint8Array): boolean;
  ghashOfStream(key: Uint8Array, source: Source, options?: Progress): Promise<Uint8Array>;
  polyvalOfStream(key: Uint8Array, source: Source, options?: Progress): Promise<Uint8Array>;
  readonly Ghash: new (key: Uint8Array) => Pieces;
  readonly Polyval: new (key: Uint8Array) => Pieces;
}

export type Present = Iterable<boolean | number>;

/** Reed-Solomon codes over bytes: all shards stand one after the other, those of data first. */
export interface ReedSolomon {
  encode(data: Count, parity: Count, shards: Uint8Array): Uint8Array;
  verify(data: Count, parity: Count, shards: Uint8Array): boolean;
  reconstruct(
    data: Count, parity: Count, shards: Uint8Array, present: Present, options?: { dataOnly?: boolean }
  ): Uint8Array;
}

/** Erasure codes by transforms, of up to 65,536 shards of words of 16 bits. */
export interface Erasure {
  encode(data: Count, parity: Count, shards: Uint16Array): Uint16Array;
  verify(data: Count, parity: Count, shards: Uint16Array, parityShards: Uint16Array): boolean;
  reconstruct(data: Count, parity: Count, shards: Uint16Array, parityShards: Uint16Array, present: Present): {
    shards: Uint16Array;
    parityShards: Uint16Array;
  };
}

/** A code that corrects errors. Words stand one after the other in one array, each with its data first. */
export interface CorrectingCode<A extends Uint8Array | Uint16Array> {
  readonly symbols: number;
  readonly data: number;
  /** Writes the symbols behind the data of each word. */
  encode(words: A): A;
  areWords(words: A): boolean[];
  /** Corrects each word in place, and tells how many symbols of it changed, and -1 of one that is near to none. */
  correct(words: A, erasures?: Present): number[];
}

/** Codes that correct errors: Reed-Solomon codes over bytes and over fields of up to 2^16 elements, and binary BCH
 * codes. */
export interface Correcting {
  overBytes(code: {
    modulus?: Count; symbols: Count; data: Count; firstRoot?: Count; rootStep?: Count;
  }): CorrectingCode<Uint8Array>;
  overField(code: {
    degree: Count; tail: Count; symbols: Count; data: Count; firstRoot?: Count; root?: Count;
  }): CorrectingCode<Uint16Array>;
  binary(code: { modulus?: Count; bits: Count; errors: Count; rootStep?: Count }): CorrectingCode<Uint8Array>;
}

/** A share of a secret, at its index from 1 to 255. */
export interface Share {
  readonly index: number;
  readonly bytes: Uint8Array;
}

/** The field of bytes over which a secret is shared: that of AES where none is named, or that of libgfshare. */
export interface ShareOptions {
  readonly field?: "aes" | "gfshare";
}

/** Shares of a secret, any `needed` of which restore it, and fewer say nothing of it. The other bytes are drawn by
 * `crypto.getRandomValues`. The texts are lines of the program `secret`. */
export interface Secrets {
  split(secret: Uint8Array, shares: Count, needed: Count, options?: ShareOptions): Share[];
  combine(shares: Iterable<Share>, needed: Count, options?: ShareOptions): Uint8Array;
  splitToText(secret: Uint8Array, shares: Count, needed: Count, options?: ShareOptions): string;
  combineText(text: string): Uint8Array;
}

export interface BinaryField extends Fields {
  readonly fields: readonly (keyof Fields)[];
  readonly version: string;
  readonly tags: Tags;
  readonly ReedSolomon: ReedSolomon;
  readonly erasure: Erasure;
  readonly correcting: Correcting;
  readonly secrets: Secrets;
  readonly module: WebAssembly.Module;
  /** What the program binfield answers to a line. */
  answer(line: string | Uint8Array): string;
  memoryBytes(): number;
  call(name: string, ...values: (Words | Count)[]): void;
}

/** Why a call did nothing: a status of the library. */
export class BinaryFieldError extends RangeError {
  readonly code: string;
  readonly status: number;
}

/** Why lines of shares give no secret; `line` is counted from 1, where it is one line. */
export class ShareTextError extends Error {
  readonly code: string;
  readonly line?: number;
}

/** The module's memory may not grow to so many bytes. Nothing has changed. */
export class OutOfMemoryError extends RangeError {
  readonly bytes: number;
}

export const version: string;

/** Loads the library: from the file beside the package, from a place, or of its bytes. */
export function load(
  source?: string | URL | ArrayBuffer | ArrayBufferView | WebAssembly.Module,
  options?: { maximumBytes?: number },
): Promise<BinaryField>;
