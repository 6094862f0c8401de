// A program over the package, of whose types `tsc` is asked; it is not run.
import { BinaryFieldError, load } from "../../javascript/binary_field";
import { split } from "../../javascript/shards";

export async function main(): Promise<void> {
  const bf = await load();
  const product: bigint = bf.Ghash128.multiply(1n << 127n, 2n);
  const byte: number = bf.BinaryField8.multiply(0x10, 0x10);
  const halves: Uint16Array = bf.BinaryField16.array([1, 2n, byte]);
  bf.BinaryField16.multiply(halves, halves, { out: halves });
  const words: BigUint64Array = bf.Poly192.square(bf.Poly192.array([product]));
  const hash: Uint8Array = bf.tags.ghash(new Uint8Array(16), new Uint8Array(words.buffer));
  const { shards } = await split(bf, new Blob([hash]), 4, 2, { signal: new AbortController().signal });
  const names: readonly string[] = bf.fields;
  const text: string = bf.answer("t8 mul 10 10");
  const restored: Uint8Array = bf.secrets.combine(bf.secrets.split(hash, 5, 3), 3);
  const lines: string = bf.secrets.splitToText(restored, 5, 3, { field: "gfshare" });
  try {
    bf.ReedSolomon.encode(4, 2, new Uint8Array(shards.length));
  } catch (error) {
    if (error instanceof BinaryFieldError) console.log(error.code, names, text, lines);
  }
  // @ts-expect-error: an array of another field
  bf.BinaryField16.square(words);
}
