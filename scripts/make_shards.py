#!/usr/bin/env python3
"""Writes the shards that the stored run of `shards` joins, crates/shards/data. With --check it compares instead.

It encodes as klauspost/reedsolomon does, by a Vandermonde matrix over the points 0, 1, .. times the inverse of its top, and not
by Lagrange's formula as the crate does. The file has three stripes. Of six shards one is left out, and two are damaged in one stripe each.
"""

import hashlib
import sys

import files
import polynomials

DATA = files.CRATES / "shards/data"
K, M = 4, 2
# The bytes of a shard in a stripe.
SIZE = 100
# The shard that is left out, and those that are damaged, each with its stripe.
MISSING, DAMAGED = 1, {3: 0, 5: 1}


def multiply(a, b):
    """The product of two bytes."""
    return polynomials.multiply(polynomials.CODES, a, b)


def power(a, n):
    """A byte to the power n."""
    return polynomials.power(polynomials.CODES, a, n)


def inverse(rows):
    """The inverse of a square matrix, by elimination."""
    n = len(rows)
    rows = [row + [int(i == j) for j in range(n)] for i, row in enumerate(rows)]
    for i in range(n):
        pivot = next(j for j in range(i, n) if rows[j][i])
        rows[i], rows[pivot] = rows[pivot], rows[i]
        factor = power(rows[i][i], 254)
        rows[i] = [multiply(factor, x) for x in rows[i]]
        for j in range(n):
            if j != i:
                factor = rows[j][i]
                rows[j] = [x ^ multiply(factor, y) for x, y in zip(rows[j], rows[i])]
    return [row[n:] for row in rows]


def dot(row, column):
    """The sum of the products of two lists."""
    total = 0
    for a, b in zip(row, column):
        total ^= multiply(a, b)
    return total


def shards_of(content):
    """The shards of a stripe."""
    data = content.ljust(K * SIZE, b"\0")
    rows = [data[i * SIZE : (i + 1) * SIZE] for i in range(K)]
    vandermonde = [[power(i, j) for j in range(K)] for i in range(K + M)]
    top = inverse(vandermonde[:K])
    matrix = [[dot(row, [top[i][j] for i in range(K)]) for j in range(K)] for row in vandermonde]
    return [bytes(dot(row, column) for column in zip(*rows)) for row in matrix]


def digest(*parts):
    """The SHA-256 of what is joined."""
    return hashlib.sha256(b"".join(parts)).digest()


def file_of(index, stripes, content):
    """The file of one shard, of whose stripes each has all shards."""
    numbers = b"".join(it.to_bytes(4, "little") for it in (1, K, M, index))
    begin = b"shards 3" + numbers + len(content).to_bytes(8, "little") + SIZE.to_bytes(8, "little") + digest(content)
    head = digest(begin)
    pieces = [digest(head, number.to_bytes(8, "little"), shards[index]) + shards[index] for number, shards in enumerate(stripes)]
    return begin + head + b"".join(pieces)


def main():
    content = "".join(f"Line {i} of a letter in shards.\n" for i in range(1, 31)).encode()
    stripes = [shards_of(content[at : at + K * SIZE]) for at in range(0, len(content), K * SIZE)]
    names = set()
    for index in range(K + M):
        if index != MISSING:
            file = bytearray(file_of(index, stripes, content))
            if index in DAMAGED:
                file[104 + DAMAGED[index] * (32 + SIZE) + 50] ^= 1
            names.add(f"letter.{index}")
            files.keep(DATA / f"letter.{index}", bytes(file))
    if {it.name for it in DATA.iterdir()} != names:
        sys.exit(f"{DATA} has other files than {', '.join(sorted(names))}")


if __name__ == "__main__":
    main()
