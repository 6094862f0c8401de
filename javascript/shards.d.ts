// The types of files of shards.
import type { BinaryField, Progress } from "./binary_field";

export interface Found {
  /** Why the file is no shard. */
  readonly reason?: string;
  readonly index?: number;
  readonly identity?: string;
  readonly data?: number;
  readonly parity?: number;
  readonly damaged?: number[];
}

export class ShardsError extends Error {
  readonly code: "LIMITS" | "NO_SHARDS" | "TOO_FEW" | "SEVERAL_FILES" | "OTHER_CONTENT";
}

export function split(
  bf: BinaryField,
  file: Blob,
  data: number,
  parity: number,
  options?: Progress,
): Promise<{ identity: string; shards: Blob[] }>;
export function join(
  bf: BinaryField, shards: readonly Blob[], options?: Progress
): Promise<{ identity: string; file: Blob }>;
export function inspect(shards: readonly Blob[], options?: Progress): Promise<Found[]>;
