// Hashes of streams, piece by piece, so that a message need not be in memory.

/** Goes over the pieces of a ReadableStream, a Blob or an iterable, and tells how far it is. An aborted signal ends
 * it, and a stream is then cancelled. */
export async function* piecesOf(source, { signal, onProgress } = {}) {
  signal?.throwIfAborted();
  const stream = typeof source?.stream === "function" ? source.stream() : source;
  const pieces = typeof stream?.getReader === "function" ? read(stream, signal) : stream;
  let done = 0;
  for await (const piece of pieces) {
    signal?.throwIfAborted();
    yield piece;
    done += piece.length;
    onProgress?.(done);
  }
}

// The pieces of a stream; not every engine has streams that are iterables.
async function* read(stream, signal) {
  const reader = stream.getReader();
  let isWhole = false;
  // A read that waits ends where the stream is cancelled.
  const cancel = () => reader.cancel(signal.reason).catch(() => {});
  signal?.addEventListener("abort", cancel);
  try {
    for (;;) {
      const { done, value } = await reader.read();
      if (done) break;
      yield value;
    }
    signal?.throwIfAborted();
    isWhole = true;
  } finally {
    signal?.removeEventListener("abort", cancel);
    if (!isWhole) await reader.cancel().catch(() => {});
    reader.releaseLock();
  }
}

async function hashed(hash, source, options) {
  for await (const piece of piecesOf(source, options)) hash.update(piece);
  return hash.digest();
}

/** GHASH of a stream under a key. */
export const ghashOfStream = (tags, key, source, options) => hashed(new tags.Ghash(key), source, options);

/** POLYVAL of a stream under a key. */
export const polyvalOfStream = (tags, key, source, options) => hashed(new tags.Polyval(key), source, options);
