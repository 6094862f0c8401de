"""A file that is larger than the memory of two processes, encoded by a Reed-Solomon code and restored without two of its six shards.

PYTHONPATH=python BINARY_FIELD_LIBRARY=FOLDER/lib python3 python/example_dask.py [BYTES]

BYTES is the size of the file, by default 192 MiB less one byte, and 64 MiB at least: a process may take half of that, and works on a piece
of each shard at once. Each process reads a piece of all rows, encodes it, and writes its shards' pieces, so that no array passes between
processes. Where dask's workers are on several machines, the folder has to be on a disk that all of them see.
"""

from __future__ import annotations

import hashlib
import importlib
import pathlib
import resource
import sys
import tempfile
from typing import Any

import numpy as np

import binary_field as bf

# dask has types only in some versions.
da: Any = importlib.import_module("dask.array")
distributed: Any = importlib.import_module("distributed")

CODE = bf.ReedSolomon(data=4, parity=2)
LOST = (0, 3)
PIECE = 1 << 20
LEAST = 64 << 20
NOTHING: Any = np.empty((0, 0), np.uint8)


def read(rows: list[Any], widths: tuple[int, ...], block_id: Any = None) -> Any:
    """A piece of all rows, each a file and the place of its first byte, or None for one that is lost; behind the end of a file are zeros."""
    at, result = sum(widths[: block_id[1]]), np.zeros((len(rows), widths[block_id[1]]), np.uint8)
    for place, row in zip(rows, result):
        if place:
            with open(place[0], "rb") as file:
                file.seek(place[1] + at)
                file.readinto(row)
    return result


def write(piece: Any, rows: list[Any], widths: tuple[int, ...], block_id: Any = None) -> Any:
    """Writes a piece of all rows, and has the number of its bytes."""
    for place, row in zip(rows, piece):
        with open(place[0], "r+b") as file:
            file.seek(place[1] + sum(widths[: block_id[1]]))
            file.write(row)
    return np.full((1, 1), piece.nbytes)


def passed_through(function: Any, rows: list[Any], made: list[Any], size: int) -> int:
    """Writes the rows that a function makes of the pieces of others, and has the number of their bytes."""
    for path, start in made:
        with open(path, "ab") as file:
            file.truncate(start + size)
    widths = (*(PIECE for _ in range(size // PIECE)), *([size % PIECE] if size % PIECE else []))
    pieces = da.map_blocks(read, rows, widths, chunks=((len(rows),), widths), dtype=np.uint8, meta=NOTHING)
    results = pieces.map_blocks(function, chunks=((len(made),), widths), dtype=np.uint8, meta=NOTHING)
    written = results.map_blocks(write, made, widths, chunks=((1,), (1,) * len(widths)), dtype=np.int64, meta=NOTHING)
    return int(written.sum().compute())


def restored(pieces: Any) -> Any:
    """The rows of data, of all rows without those that are lost."""
    return CODE.reconstruct_data(pieces, [it not in LOST for it in range(len(pieces))])


def digest(path: pathlib.Path) -> str:
    """The SHA-256 of a file."""
    found = hashlib.sha256()
    with open(path, "rb") as file:
        while piece := file.read(PIECE):
            found.update(piece)
    return found.hexdigest()


def allow(more: int) -> int:
    """Lets this process take so many bytes of memory beside what it has, and no more."""
    status = pathlib.Path("/proc/self/status").read_text(encoding="ascii")
    used = int(status.partition("VmData:")[2].split()[0]) << 10
    resource.setrlimit(resource.RLIMIT_DATA, (used + more, used + more))
    return more


def main() -> int:
    """Prints what is done; the exit status is 1 where the file was not restored."""
    length = int(sys.argv[1]) if len(sys.argv) > 1 else (192 << 20) - 1
    if length < LEAST:
        print(f"the file has at least {LEAST} bytes, so that half of it is enough for a process", file=sys.stderr)
        return 2
    size = -(-length // CODE.data)
    with tempfile.TemporaryDirectory() as name, distributed.LocalCluster(n_workers=2, threads_per_worker=1, dashboard_address=None) as cluster:
        folder = pathlib.Path(name)
        source, copy = folder / "file", folder / "copy"
        draw = np.random.default_rng(1)
        with open(source, "wb") as file:
            for start in range(0, length, PIECE):
                file.write(draw.bytes(min(PIECE, length - start)))
        with distributed.Client(cluster) as client:
            allowed = client.run(allow, length // 2)
            print(f"a file of {length} bytes, and {len(allowed)} processes, each of which may take {length // 2} bytes")
            data = [(source, size * it) for it in range(CODE.data)]
            shards: list[Any] = [(folder / f"shard{it}", 0) for it in range(CODE.data + CODE.parity)]
            print("written in shards:", passed_through(CODE.encode, data, shards, size))
            for it in LOST:
                shards[it][0].unlink()
            shards = [None if it in LOST else place for it, place in enumerate(shards)]
            print("restored:", passed_through(restored, shards, [(copy, start) for _, start in data], size))
        with open(copy, "ab") as file:
            file.truncate(length)
        is_same = digest(source) == digest(copy)
    print("the same file:", is_same)
    return 0 if is_same else 1


if __name__ == "__main__":
    sys.exit(main())
