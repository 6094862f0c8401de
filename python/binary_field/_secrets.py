"""Shares of a secret."""

from __future__ import annotations

import operator
import os
from typing import Any, Iterable

import numpy as np

from ._bytes import _bytes
from ._library import Words, call

# The fields of bytes by their moduli.
_MODULI = {"aes": 0x11B, "gfshare": 0x11D}


def _modulus(field: str) -> int:
    """The modulus of a field."""
    if field not in _MODULI:
        raise ValueError(f"expected the field aes or gfshare, not {field!r}")
    return _MODULI[field]


def split_secret(secret: Any, shares: int, needed: int, *, field: str = "aes") -> list[tuple[int, bytes]]:
    """So many shares of a secret, any `needed` of which restore it, where fewer say nothing of it (A. Shamir, How to share a secret, 1979):
    their indexes, from 1, and their bytes, each as long as the secret.

    There are from 2 to 255, and at least 2 are needed. The other bytes are drawn by `os.urandom`. The field is that of AES, or that of
    libgfshare. Copies of the secret and of the draws stay in Python's memory, which does not overwrite what it gives back.

    >>> shares = bf.split_secret(b"a key", shares=5, needed=3)
    >>> bf.combine_secret(shares[2:], needed=3)
    b'a key'
    """
    count, few, hidden = operator.index(shares), operator.index(needed), _bytes(secret)
    modulus = _modulus(field)
    if not 2 <= few <= count <= 255:
        raise ValueError("expected 2 <= needed <= shares <= 255")
    if not hidden.size:
        raise ValueError("the secret is empty")
    draws = np.frombuffer(os.urandom((few - 1) * hidden.size), np.uint8)
    rows = np.zeros((count, hidden.size), np.uint8)
    call("secret_split", modulus, few, count, hidden, draws, rows)
    return [(index, row.tobytes()) for index, row in enumerate(rows, 1)]


def combine_secret(shares: Iterable[tuple[int, Any]], needed: int, *, field: str = "aes") -> bytes:
    """The secret of shares, pairs of an index and bytes, of which `needed` are needed. Of more all have to be those of one secret, and it is
    not told which is wrong, as `correct_secret` does; whether bytes of `needed` shares are right cannot be told.

    >>> (one, first), *others = bf.split_secret(b"a key", shares=4, needed=2)
    >>> wrong = bytes([first[0] ^ 1]) + first[1:]
    >>> bf.combine_secret([(one, wrong), *others], needed=2)
    Traceback (most recent call last):
    ValueError: a share is wrong, or is of another secret
    """
    indexes, rows, secret = _given(shares, needed)
    try:
        call("secret_combine", _modulus(field), operator.index(needed), indexes, rows, secret)
    except np.linalg.LinAlgError:
        raise ValueError("a share is wrong, or is of another secret") from None
    return secret.tobytes()


def correct_secret(shares: Iterable[tuple[int, Any]], needed: int, *, field: str = "aes") -> tuple[bytes, list[int]]:
    """The secret of shares some of which may be wrong, and the indexes of these. A share is wrong if any of its bytes is, and of n shares up
    to (n - needed) // 2 may be. More are an error, unless they are as near to the shares of another secret.

    >>> (one, first), *others = bf.split_secret(b"a key", shares=4, needed=2)
    >>> wrong = bytes([first[0] ^ 1]) + first[1:]
    >>> bf.correct_secret([(one, wrong), *others], needed=2)
    (b'a key', [1])
    """
    indexes, rows, secret = _given(shares, needed)
    wrong = np.zeros(indexes.size, np.uint8)
    try:
        call("secret_combine_correcting", _modulus(field), operator.index(needed), indexes, rows, secret, wrong)
    except np.linalg.LinAlgError:
        raise ValueError("more shares are wrong, or of another secret, than can be told") from None
    return secret.tobytes(), indexes[wrong != 0].tolist()


def _given(shares: Iterable[tuple[int, Any]], needed: int) -> tuple[Words, Words, Words]:
    """Shares as a call takes them, of which so many are needed: their indexes, their bytes one after the other, and room for the secret."""
    given = [(operator.index(index), _bytes(it)) for index, it in shares]
    if any(not 1 <= index <= 255 for index, _ in given):
        raise ValueError("an index is a number from 1 to 255")
    if len({it.size for _, it in given}) > 1:
        raise ValueError("all shares must have one size")
    if len({index for index, _ in given}) < len(given):
        raise ValueError("two shares have one index")
    if not 2 <= operator.index(needed) <= len(given):
        raise ValueError(f"expected from 2 to {len(given)} shares to be needed, since there are so many")
    indexes, rows = np.array([it for it, _ in given], np.uint8), np.concatenate([it for _, it in given])
    return indexes, rows, np.zeros(given[0][1].size, np.uint8)
