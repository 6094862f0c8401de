"""Cases of the program `shards` over shards of more than one file, and of one file split twice; lost-shards runs them."""

import hashlib
import os
import shutil

from shard_program import FILE, gives_up, joins, read, require, shards, split, write


def two_versions(draws):
    """Of two versions that lie together neither is mixed with the other: the one that has enough comes back."""
    old, new = draws.randbytes(5000), draws.randbytes(5000)
    split(old, 4, 2)
    for index in range(2, 6):
        os.rename(f"{FILE}.{index}", f"kept.{index}")
    for index in range(2):
        os.rename(f"{FILE}.{index}", f"old.{index}")
    split(new, 4, 2)
    for index in range(2):
        os.replace(f"old.{index}", f"{FILE}.{index}")
    joins(new)
    os.remove(FILE)
    os.remove(f"{FILE}.5")
    gives_up("are enough")
    joins(old, f"{FILE}.0", f"{FILE}.1", "kept.2", "kept.3", f"{FILE}.4")


def stale_shard_first(draws):
    """One stale shard beside enough whole ones is not taken."""
    split(draws.randbytes(700), 4, 2)
    os.rename(f"{FILE}.0", "stale")
    for index in range(1, 6):
        os.remove(f"{FILE}.{index}")
    content = draws.randbytes(900)
    split(content, 4, 2)
    os.replace("stale", f"{FILE}.0")
    status, _, said = shards("join", FILE)
    require(status == 0 and f"{FILE}.0: it is a shard of another file" in said, f"status {status}, {said.strip()}")
    require(read(FILE) == content, "other bytes came back")


def two_that_have_enough(draws):
    """Of two files that have enough shards `--identity` says which, and neither is taken without it."""
    contents = [draws.randbytes(300), draws.randbytes(300)]
    for place, content in enumerate(contents):
        split(content, 2, 1, file=f"f{place}")
    mixed = [f"f{place}.{index}" for index in range(3) for place in range(2)]
    said = gives_up("--identity", *mixed)
    for content in contents:
        identity = hashlib.sha256(content).hexdigest()
        require(identity in said, "the identity is not named")
        joins(content, *mixed, "--identity", identity[:12])
        os.remove(FILE)
    gives_up("no shards", *mixed, "--identity", "0123")


def one_file_split_twice(draws):
    """Shards of one file by two codes do not mix, and either code restores it."""
    content = draws.randbytes(1000)
    split(content, 4, 2, file="a")
    split(content, 3, 3, file="b")
    joins(content, "a.0", "a.1", "b.2", "b.3", "b.4", "a.5")
    os.remove(FILE)
    gives_up("are enough", "a.0", "a.1", "a.2", "b.3", "b.4")


def whole_set_of_two(draws):
    """Of two sets of one file's shards the whole one is taken, whatever the order of names, and so it is beside a head by which one shard is enough."""
    content = draws.randbytes(1000)
    split(content, 2, 2, file="a")
    split(content, 3, 2, file="b")
    for index in range(3):
        file = bytearray(read(f"a.{index}"))
        file[-1] ^= 1
        write(f"a.{index}", file)
    alone = bytearray(read("b.0"))
    alone[12:16] = (1).to_bytes(4, "little")
    alone[72:104] = hashlib.sha256(alone[:72]).digest()
    write("c", alone)
    damaged, whole = [f"a.{index}" for index in range(4)], [f"b.{index}" for index in range(1, 5)]
    for order in ([*damaged, *whole], [*whole, *damaged], ["c", *whole], [*whole, "c"], ["c", *damaged, *whole]):
        joins(content, *order)
        os.remove(FILE)
    gives_up("too few", *damaged, "c")


def shard_named_twice(draws):
    """A shard that is named twice, or copied, counts once."""
    content = draws.randbytes(1000)
    split(content, 3, 2)
    shutil.copy(f"{FILE}.1", "copy")
    gives_up("are enough", f"{FILE}.0", f"{FILE}.0", f"{FILE}.1", "copy")
    joins(content, f"{FILE}.0", f"{FILE}.0", f"{FILE}.1", "copy", f"{FILE}.4")
