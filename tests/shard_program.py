"""Runs the built program `shards` for tests, splits and joins files with it, and damages shards."""

import os
import subprocess
import sys

TOP = os.path.dirname(os.path.dirname(os.path.abspath(__file__)))
sys.path.insert(0, f"{TOP}/scripts")
import files

PROGRAM = os.path.abspath(sys.argv[1]) if len(sys.argv) > 1 else f"{TOP}/crates/shards/out/shards"
FILE = "file"
LARGE = 9_000_000
# Four stripes in four shards of data and two of parity.
STRIPED = 40_000_000
HEAD, DIGEST, STRIPE = 104, 32, 1 << 24
# What is said to split by the code of transforms where that of matrices would do.
TRANSFORM = ("--code", "transform")


def shards(*words, **streams):
    """The exit status of the program, and what it wrote to both its streams."""
    streams = {"stdout": subprocess.PIPE, "stderr": subprocess.PIPE, **streams}
    ran = subprocess.run([PROGRAM, *words], text=True, timeout=300, check=False, **streams)
    return ran.returncode, ran.stdout or "", ran.stderr or ""


def write(path, content):
    """Writes a file."""
    with open(path, "wb") as it:
        it.write(content)


def read(path):
    """The bytes of a file."""
    with open(path, "rb") as it:
        return it.read()


def names():
    """The names of all files."""
    return sorted(os.listdir("."))


def require(holds, what):
    """Ends a case that went wrong."""
    if not holds:
        raise AssertionError(what)


def damage(path, draws):
    """Changes one byte of a file."""
    content = bytearray(read(path))
    content[draws.randrange(len(content))] ^= draws.randrange(1, 256)
    write(path, content)


def size_of(length, data, parity, *words):
    """How many bytes each shard has of a stripe, and how many stripes there are."""
    most = max(1, -(-STRIPE // (data + parity)))
    count = max(1, -(-length // (most * data)))
    size = max(1, -(-length // (count * data)))
    if words == TRANSFORM or data + parity > 256:
        size += size % 2
    return size, -(-length // (size * data))


def length_of(length, data, parity, *words):
    """How many bytes the file of a shard has."""
    size, count = size_of(length, data, parity, *words)
    return HEAD + count * (DIGEST + size)


def damage_piece(path, stripe, size, draws):
    """Changes one byte of a shard in a stripe."""
    with open(path, "r+b") as it:
        it.seek(HEAD + stripe * (DIGEST + size) + draws.randrange(DIGEST + size))
        byte = it.read(1)[0]
        it.seek(-1, os.SEEK_CUR)
        it.write(bytes([byte ^ draws.randrange(1, 256)]))


def split(content, data, parity, *words, file=FILE):
    """Splits a file with these bytes, and removes it."""
    write(file, content)
    status, _, said = shards("split", file, str(data), str(parity), *words)
    require(status == 0, f"split: status {status}, {said.strip()}")
    os.remove(file)


def joins(content, *words, file=FILE):
    """Looks whether the file comes back whole, and leaves nothing beside."""
    before = set(names())
    status, _, said = shards("join", file, *words)
    require(status == 0, f"join: status {status}, {said.strip()}")
    require(read(file) == content, "other bytes came back")
    require(set(names()) == before | {file}, f"left behind: {set(names()) - before - {file}}")


def gives_up(what, *words, file=FILE):
    """Looks whether a join fails, says why, and leaves nothing."""
    before = names()
    status, _, said = shards("join", file, *words)
    require(status == 1 and what in said, f"join: status {status}, {said.strip()}")
    require(names() == before, "something is left behind")
    return said
