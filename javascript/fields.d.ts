// The fields by their names. Written by scripts/make_javascript.py; do not edit.
import type { Field } from "./binary_field";

export interface Fields {
  /** GF(2). */
  readonly Gf2: Field<Uint8Array, number>;
  /** GF(2^2), a level of the tower. */
  readonly BinaryField2: Field<Uint8Array, number>;
  /** GF(2^4), a level of the tower. */
  readonly BinaryField4: Field<Uint8Array, number>;
  /** GF(2^8), a level of the tower. */
  readonly BinaryField8: Field<Uint8Array, number>;
  /** GF(2^16), a level of the tower. */
  readonly BinaryField16: Field<Uint16Array, number>;
  /** GF(2^32), a level of the tower. */
  readonly BinaryField32: Field<Uint32Array, number>;
  /** GF(2^64), a level of the tower. */
  readonly BinaryField64: Field<BigUint64Array, bigint>;
  /** GF(2^128), a level of the tower. */
  readonly BinaryField128: Field<BigUint64Array, bigint>;
  /** GF(2)[x] modulo x^8 + x^4 + x^3 + x + 1, the bytes of AES (FIPS 197). */
  readonly Rijndael8b: Field<Uint8Array, number>;
  /** GF(2)[x] modulo x^64 + x^4 + x^3 + x + 1. */
  readonly Poly64: Field<BigUint64Array, bigint>;
  /** GF(2)[x] modulo x^128 + x^7 + x^2 + x + 1, the field of GHASH (NIST SP 800-38D), bit i for x^i. */
  readonly Ghash128: Field<BigUint64Array, bigint>;
  /** GF(2^64)[y] modulo y^3 + y + 1 over p64, the coefficient of 1 first. */
  readonly Poly192: Field<BigUint64Array, bigint>;
}
