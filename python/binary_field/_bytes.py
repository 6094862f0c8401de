"""Hashes of authentication tags, and erasure codes, over bytes."""

from __future__ import annotations

import operator
from typing import Any, Sequence, TypeVar

import numpy as np

from ._library import WORDS, Words, call
from ._storage import Stored


def _bytes(value: Any) -> Words:
    """The bytes of an object that lends them; an array of numpy has to be one of bytes."""
    if isinstance(value, np.ndarray) and value.dtype != np.uint8:
        raise TypeError(f"expected an array of uint8, not of {value.dtype}")
    view = memoryview(value)
    return np.ascontiguousarray(np.frombuffer(view.cast("B") if view.nbytes and view.contiguous else view.tobytes(), np.uint8))


def _buffer(value: Any) -> Words:
    """The bytes of an object that lends them to be written."""
    buffer = value if isinstance(value, np.ndarray) else np.frombuffer(value, np.uint8)
    if not buffer.flags.writeable:
        raise ValueError("a shard that is written is read-only")
    return buffer


def _key(value: Any) -> Words:
    """The bytes of a key."""
    key = _bytes(value)
    if key.size != 16:
        raise ValueError(f"a key has 16 bytes, and this one has {key.size}")
    return key


def _hash(name: str, key: Any, *given: Any) -> bytes:
    """The hash that a function writes."""
    result = np.zeros(16, np.uint8)
    call(name, _key(key), *map(_bytes, given), result)
    return result.tobytes()


def ghash(key: Any, message: Any) -> bytes:
    """GHASH of the message (NIST SP 800-38D), with zeros added to whole blocks. The key has 16 bytes.

    >>> bf.ghash(b"sixteen byte key", b"a message").hex()
    '66c5daff8936bb1e9c4c9904324d3958'
    """
    return _hash("tag_ghash", key, message)


def polyval(key: Any, message: Any) -> bytes:
    """POLYVAL of the message (RFC 8452), with zeros added to whole blocks. The key has 16 bytes.

    >>> bf.polyval(b"sixteen byte key", b"a message").hex()
    'e20c8edbbf9f56216764e11642057883'
    """
    return _hash("tag_polyval", key, message)


def gcm_ghash(key: Any, associated: Any, ciphertext: Any) -> bytes:
    """The hash of GCM over associated data and ciphertext, with the block of their lengths. The key has 16 bytes.

    >>> bf.gcm_ghash(b"sixteen byte key", b"from, to", b"ciphertext").hex()
    'b55e742c18cfcd002d8abd9405d99c5e'
    """
    return _hash("tag_gcm_ghash", key, associated, ciphertext)


_Some = TypeVar("_Some", bound="_Pieces")


class _Pieces:
    """A hash of a message that comes in pieces of any length, under a key of 16 bytes. It holds what tells the key."""

    digest_size = block_size = 16
    name: str

    def __init__(self, key: Any, message: Any = b"") -> None:
        self._state = np.zeros((), WORDS[f"{self.name}_state"])
        call(f"tag_{self.name}_init", self._state, _key(key))
        self.update(message)

    def update(self, message: Any) -> None:
        """Adds bytes to the message, of any number.

        >>> for a_hash in bf.Ghash(b"sixteen byte key"), bf.Polyval(b"sixteen byte key"):
        ...     a_hash.update(b"a mess")
        ...     a_hash.update(b"age")
        ...     a_hash.digest().hex()
        '66c5daff8936bb1e9c4c9904324d3958'
        'e20c8edbbf9f56216764e11642057883'
        """
        call(f"tag_{self.name}_update", self._state, _bytes(message))

    def pad(self) -> None:
        """Adds as many zeros as make the message whole blocks of 16 bytes, which may be none.

        >>> a_hash = bf.Ghash(b"sixteen byte key", b"a message")
        >>> a_hash.pad()
        >>> a_hash.update(b"more")
        >>> a_hash.digest() == bf.ghash(b"sixteen byte key", b"a message" + bytes(7) + b"more")
        True
        """
        call(f"tag_{self.name}_pad", self._state)

    def copy(self: "_Some") -> "_Some":
        """Another hash of the same message, which goes on by itself.

        >>> of_key = bf.Ghash(b"sixteen byte key")
        >>> a_hash = of_key.copy()
        >>> a_hash.update(b"a message")
        >>> of_key.digest() == bytes(16)
        True
        """
        other = object.__new__(type(self))
        other._state = self._state.copy()
        return other

    def digest(self) -> bytes:
        """The hash of the message so far, with zeros added to whole blocks; the message stays as it is.

        >>> bf.Polyval(b"sixteen byte key", b"a message").digest() == bf.polyval(b"sixteen byte key", b"a message")
        True
        """
        return self._final(f"tag_{self.name}_final")

    def _final(self, function: str, *lengths: int) -> bytes:
        """The hash that a function writes, which empties the message of a copy."""
        result = np.zeros(16, np.uint8)
        call(function, self._state.copy(), *lengths, result)
        return result.tobytes()


class Ghash(_Pieces):
    """GHASH (NIST SP 800-38D) of a message that comes in pieces of any length, under a key of 16 bytes, as `ghash` is that of a whole one.

    >>> a_hash = bf.Ghash(b"sixteen byte key", b"a mess")
    >>> a_hash.update(b"age")
    >>> a_hash.digest() == bf.ghash(b"sixteen byte key", b"a message")
    True
    """

    name = "ghash"

    def gcm_digest(self, associated_length: int, ciphertext_length: int) -> bytes:
        """What `gcm_ghash` gives, where the message is the associated data, `pad` behind them, and the ciphertext, by their lengths in
        bytes, below 2^61. The message stays as it is.

        >>> a_hash = bf.Ghash(b"sixteen byte key", b"associated")
        >>> a_hash.pad()
        >>> a_hash.update(b"ciphertext")
        >>> a_hash.gcm_digest(10, 10) == bf.gcm_ghash(b"sixteen byte key", b"associated", b"ciphertext")
        True
        """
        for length in (associated_length, ciphertext_length):
            if not 0 <= length < 1 << 61:
                raise ValueError("expected lengths from 0 to 2^61 - 1")
        return self._final("tag_gcm_ghash_final", associated_length, ciphertext_length)


class Polyval(_Pieces):
    """POLYVAL (RFC 8452) of a message that comes in pieces of any length, under a key of 16 bytes, as `polyval` is that of a whole one.

    >>> bf.Polyval(b"sixteen byte key").digest() == bytes(16)
    True
    """

    name = "polyval"


def tags_are_equal(left: Any, right: Any) -> bool:
    """Whether the two have the same bytes. Nothing is claimed on the time that it takes.

    >>> bf.tags_are_equal(b"tag", bytearray(b"tag"))
    True
    """
    result = np.zeros(1, np.uint8)
    call("tags_are_equal", _bytes(left), _bytes(right), result)
    return bool(result[0])


def answer(line: str | bytes) -> str:
    """What the program binfield answers to a line, `field operation operands`: the result in hexadecimal, `none` for the inverse of 0, or
    `error` and the number of what is wrong with the line.

    >>> bf.answer("t8 mul 10 10")
    '41'
    """
    result, written = np.zeros(48, np.uint8), np.zeros(1, np.uint64)
    call("answer", _bytes(line.encode() if isinstance(line, str) else line), result, written)
    return result[: int(written[0])].tobytes().decode("ascii")


class _Code:
    """How many shards of data and of parity a code has, and shards as the rows of an array of bytes."""

    def __init__(self, data: int, parity: int) -> None:
        self._data, self._parity = data, parity

    @property
    def data(self) -> int:
        """How many shards of data there are."""
        return self._data

    @property
    def parity(self) -> int:
        """How many shards of parity there are."""
        return self._parity

    def __repr__(self) -> str:
        return f"{type(self).__name__}(data={self.data}, parity={self.parity})"

    def verify(self, shards: Any) -> bool:
        """Whether the shards of parity are those of the data.

        >>> for code in bf.ReedSolomon(data=2, parity=1), bf.TransformCode(data=2, parity=1):
        ...     shards = code.encode([b"ab", b"cd"])
        ...     shards[0, 0] += 1
        ...     code.verify(shards)
        False
        False
        """
        result = np.zeros(1, np.uint8)
        self._verify(self._rows(shards, self.data + self.parity), result)
        return bool(result[0])

    def _verify(self, shards: Words, result: Words) -> None:
        """Writes whether the shards of parity are those of the data."""
        raise NotImplementedError

    def _with_room(self, data: Any) -> Words:
        """All shards, those of data as they are and those of parity with zeros."""
        data = self._rows(data, self.data)
        shards = np.zeros((self.data + self.parity, data.shape[1]), np.uint8)
        shards[: self.data] = data
        return shards

    def _with_flags(self, shards: Any, present: Any) -> tuple[Words, Words]:
        """All shards in an array of their own, the missing ones with anything, and a byte for each, which is 0 where it is missing."""
        given = [it is not None for it in shards]
        if present is not None:
            if len(present) != len(given):
                raise ValueError("expected as many flags as shards")
            given = [is_given and bool(flag) for is_given, flag in zip(given, present)]
        sizes = [len(it) for it in shards if it is not None]
        if not sizes:
            raise ValueError("too few shards are present")
        rows = [np.zeros(sizes[0], np.uint8) if it is None else it for it in shards]
        return self._rows(rows, self.data + self.parity).copy(), np.array(given, dtype=np.uint8)

    @staticmethod
    def _rows(shards: Any, count: int) -> Words:
        if not isinstance(shards, np.ndarray):
            shards = [_bytes(it.to_words() if isinstance(it, Stored) else it) for it in shards]
            if len({len(it) for it in shards}) > 1:
                raise ValueError("all shards must have one size")
            shards = np.array(shards, np.uint8)
        if shards.dtype != np.uint8 or shards.ndim != 2 or len(shards) != count:
            raise ValueError(f"expected {count} rows of bytes")
        return np.ascontiguousarray(shards)


class ReedSolomon(_Code):
    """A code that restores losses, of shards that are known to be missing, and corrects no errors.

    It has so many shards of data and of parity, which are told by these names, at most 256 in all, over bytes modulo x^8 + x^4 + x^3 + x^2 + 1. Shards are the rows of an
    array of bytes, or of elements that are bytes, those of data first. Wrong bytes in at most as many shards as there are of parity are found
    by `verify`, and not corrected. The parity is that of klauspost/reedsolomon, and not of other libraries: the last example has 1569 by zfec. The tables of the code are made at the
    first call that uses them, and kept: 32 bytes for each pair of a shard of data and one of parity, where those of parity are counted up to
    a multiple of four.

    >>> code = bf.ReedSolomon(data=2, parity=1)
    >>> shards = code.encode([b"two ", b"rows"])
    >>> code.reconstruct_data([None, shards[1], shards[2]]).tobytes()
    b'two rows'
    >>> bf.ReedSolomon(data=3, parity=2).encode([bytes([1]), bytes([2]), bytes([3])])[3:].tobytes().hex()
    '0015'
    """

    def __init__(self, *, data: int, parity: int) -> None:
        data, parity = operator.index(data), operator.index(parity)
        if not (data >= 1 and parity >= 1 and data + parity <= 256):
            raise ValueError("invalid shard counts: at least one of data and one of parity, and at most 256 in all")
        super().__init__(data, parity)
        self._made: Words | None = None

    @property
    def _tables(self) -> Words:
        if self._made is None:
            length = np.zeros(1, np.uint64)
            call("rs_tables_length", self.data, self.parity, length)
            tables = np.zeros(int(length[0]), np.uint8)
            call("rs_prepare", self.data, self.parity, tables)
            tables.flags.writeable = False
            self._made = tables
        return self._made

    def encode(self, data: Any) -> Words:
        """All shards: those of data, and behind them those of parity.

        >>> bf.ReedSolomon(data=2, parity=1).encode([b"ab", b"cd"]).tobytes()
        b'abcden'
        """
        shards = self._with_room(data)
        call("rs_encode_prepared", self.data, self.parity, self._tables, shards)
        return shards

    def parity_of(self, shards: Sequence[Any], out: Sequence[Any] | None = None) -> Any:
        """The shards of parity of shards of data that are buffers of their own, none of which is copied: the rows of an array, or `out`, a
        buffer for each of them that is written.

        >>> code = bf.ReedSolomon(data=2, parity=1)
        >>> code.parity_of([b"ab", bytearray(b"cd")]).tobytes() == code.encode([b"ab", b"cd"])[2].tobytes()
        True
        """
        rows = [_bytes(it.to_words() if isinstance(it, Stored) else it) for it in shards]
        if len(rows) != self.data or len({len(it) for it in rows}) != 1 or not len(rows[0]):
            raise ValueError(f"expected {self.data} shards of one size, which is not 0")
        sums: Sequence[Words] | Words
        sums = np.zeros((self.parity, len(rows[0])), np.uint8) if out is None else [np.frombuffer(it, np.uint8) for it in out]
        if len(sums) != self.parity or any(len(it) != len(rows[0]) for it in sums):
            raise ValueError(f"expected {self.parity} shards of parity of the size of those of data")
        if not all(it.flags.writeable for it in sums):
            raise ValueError("a shard of parity is read-only")
        for row, parity in enumerate(sums):
            parity[:] = 0
            for at, shard in enumerate(rows):
                self.add_shard(at, row, shard, parity)
        return sums if out is None else out

    def add_shard(self, data_shard: int, parity_shard: int, shard: Any, sums: Any) -> None:
        """Adds to `sums` what a shard of data is in a shard of parity, both counted from 0. Once each shard of data was added to zeros, in any
        order, `sums` is that shard of parity.

        >>> code, sums = bf.ReedSolomon(data=2, parity=1), bytearray(2)
        >>> code.add_shard(0, 0, b"ab", sums)
        >>> code.add_shard(1, 0, b"cd", sums)
        >>> bytes(sums) == code.encode([b"ab", b"cd"])[2].tobytes()
        True
        """
        added = sums if isinstance(sums, np.ndarray) else np.frombuffer(sums, np.uint8)
        call("rs_add_shard", self.data, self.parity, self._tables, data_shard, parity_shard, _bytes(shard), added)

    def reconstruct_in_place(self, shards: Sequence[Any], present: Sequence[bool]) -> None:
        """Writes the missing shards of shards that are buffers of their own, none of which is copied. A shard is missing where `present`
        has False; where it is None it is left out, as those of parity may be.

        >>> code, lost = bf.ReedSolomon(data=2, parity=1), bytearray(2)
        >>> code.reconstruct_in_place([b"ab", lost, code.encode([b"ab", b"cd"])[2]], [True, False, True])
        >>> bytes(lost)
        b'cd'
        """
        flags = np.array([bool(it) for it in present], np.uint8)
        rows = [None if it is None else _bytes(it) if flag else _buffer(it) for it, flag in zip(shards, flags)]
        sizes = {len(it) for it in rows if it is not None}
        if not len(shards) == len(flags) == self.data + self.parity or len(sizes) != 1 or 0 in sizes:
            raise ValueError(f"expected {self.data + self.parity} shards of one size, which is not 0, and as many flags")
        if any(it is None and flag for it, flag in zip(rows, flags)):
            raise ValueError("a shard that is present is None")
        factors = np.zeros(len(flags), np.uint8)
        for lost in np.flatnonzero(flags == 0):
            call("rs_shard_factors", self.data, self.parity, flags, int(lost), factors)
            row = rows[lost]
            if row is not None:
                row[:] = 0
                for at in np.flatnonzero(factors):
                    call("rs_add_multiple", int(factors[at]), rows[at], row)

    def _verify(self, shards: Words, result: Words) -> None:
        call("rs_verify_prepared", self.data, self.parity, self._tables, shards, result)

    def reconstruct(self, shards: Sequence[Any] | Words, present: Sequence[bool] | None = None) -> Words:
        """All shards, the missing ones restored. A shard is missing where it is None, and where `present` has False.

        >>> shards = bf.ReedSolomon(data=2, parity=1).encode([b"ab", b"cd"])
        >>> bf.ReedSolomon(data=2, parity=1).reconstruct([shards[0], b"??", shards[2]], [True, False, True]).tobytes() == shards.tobytes()
        True
        """
        return self._restored("rs_reconstruct", shards, present)

    def reconstruct_data(self, shards: Sequence[Any] | Words, present: Sequence[bool] | None = None) -> Words:
        """The shards of data, the missing ones restored.

        >>> shards = bf.ReedSolomon(data=2, parity=1).encode([b"ab", b"cd"])
        >>> bf.ReedSolomon(data=2, parity=1).reconstruct_data([None, *shards[1:]]).tobytes()
        b'abcd'
        """
        return self._restored("rs_reconstruct_data", shards, present)[: self.data]

    def prepare_reconstruct(self, present: Sequence[bool]) -> PreparedReconstruct:
        """What restores many stripes that lack the same shards, by tables that are made once. A shard is missing where `present` has False.

        >>> code = bf.ReedSolomon(data=2, parity=1)
        >>> stripes = [code.encode([b"ab", b"cd"]), code.encode([b"ef", b"gh"])]
        >>> prepared = code.prepare_reconstruct([False, True, True])
        >>> [prepared.reconstruct_data([None, *shards[1:]]).tobytes() for shards in stripes]
        [b'abcd', b'efgh']
        """
        return PreparedReconstruct(self, present)

    def _restored(self, name: str, shards: Any, present: Any) -> Words:
        all_shards, flags = self._with_flags(shards, present)
        call(name, self.data, self.parity, all_shards, flags)
        return all_shards


class PreparedReconstruct:
    """What restores the missing shards of stripes that all lack the same ones, by tables that are made once and kept: `ReedSolomon.prepare_reconstruct`
    makes it."""

    def __init__(self, code: ReedSolomon, present: Sequence[bool]) -> None:
        flags = np.array([bool(it) for it in present], np.uint8)
        if len(flags) != code.data + code.parity:
            raise ValueError(f"expected {code.data + code.parity} flags")
        tables = np.zeros(code._tables.size, np.uint8)
        call("rs_prepare_reconstruct", code.data, code.parity, flags, tables)
        tables.flags.writeable = flags.flags.writeable = False
        self.code, self._flags, self._made = code, flags, tables

    def reconstruct(self, shards: Sequence[Any] | Words) -> Words:
        """All shards, the missing ones restored, whatever stands at their places: None, or as many bytes as a shard has.

        >>> code = bf.ReedSolomon(data=2, parity=1)
        >>> code.prepare_reconstruct([True, False, True]).reconstruct([b"ab", None, code.encode([b"ab", b"cd"])[2]])[1].tobytes()
        b'cd'
        """
        return self._restored("rs_reconstruct_prepared", shards)

    def reconstruct_data(self, shards: Sequence[Any] | Words) -> Words:
        """The shards of data, the missing ones restored.

        >>> code = bf.ReedSolomon(data=2, parity=1)
        >>> code.prepare_reconstruct([True, False, True]).reconstruct_data([b"ab", b"??", code.encode([b"ab", b"cd"])[2]]).tobytes()
        b'abcd'
        """
        return self._restored("rs_reconstruct_data_prepared", shards)[: self.code.data]

    def reconstruct_in_place(self, shards: Words) -> None:
        """Writes the missing rows of an array of bytes, which is not copied.

        >>> code = bf.ReedSolomon(data=2, parity=1)
        >>> shards = code.encode([b"ab", b"cd"])
        >>> shards[1] = 0
        >>> code.prepare_reconstruct([True, False, True]).reconstruct_in_place(shards)
        >>> shards[1].tobytes()
        b'cd'
        """
        if not isinstance(shards, np.ndarray) or shards.dtype != np.uint8 or shards.ndim != 2 or len(shards) != len(self._flags):
            raise ValueError(f"expected an array of {len(self._flags)} rows of bytes")
        call("rs_reconstruct_prepared", self.code.data, self.code.parity, self._made, shards, self._flags)

    def _restored(self, name: str, shards: Any) -> Words:
        given = [it if flag else None for it, flag in zip(shards, self._flags)] if len(shards) == len(self._flags) else shards
        all_shards, present = self.code._with_flags(given, None)
        if (present != self._flags).any():
            raise ValueError("a shard that is present is None")
        call(name, self.code.data, self.code.parity, self._made, all_shards, self._flags)
        return all_shards


class TransformCode(_Code):
    """A code that restores losses, as `ReedSolomon` does, of thousands of shards. It goes by additive transforms over `BinaryField16`.

    The number of shards of data, counted up to a power of two, and that of shards of parity are together at most 65,536. Shards are the rows
    of an array of bytes, those of data first; each has an even number of bytes, of which two are an element, the low one first. The parity is
    not that of `ReedSolomon`.

    >>> code = bf.TransformCode(data=1000, parity=500)
    >>> shards = code.encode([f"row {it:4}".encode() for it in range(1000)])
    >>> code.reconstruct([None] * 500 + list(shards[500:]))[7].tobytes()
    b'row    7'
    """

    def __init__(self, *, data: int, parity: int) -> None:
        data, parity = operator.index(data), operator.index(parity)
        if not (data >= 1 and parity >= 1 and (1 << (data - 1).bit_length()) + parity <= 1 << 16):
            raise ValueError(
                "invalid shard counts: at least one of data and one of parity, and at most 65536 in all, those of data counted up to a power of 2"
            )
        super().__init__(data, parity)

    def encode(self, data: Any) -> Words:
        """All shards: those of data, and behind them those of parity.

        >>> bf.TransformCode(data=2, parity=1).encode([b"ab", b"cd"])[:2].tobytes()
        b'abcd'
        """
        shards = self._with_room(data)
        call("erasure_encode", self.data, self.parity, *self._halves(shards), self._space())
        return shards

    def _verify(self, shards: Words, result: Words) -> None:
        call("erasure_verify", self.data, self.parity, *self._halves(shards), self._space(), result)

    def reconstruct(self, shards: Sequence[Any] | Words, present: Sequence[bool] | None = None) -> Words:
        """All shards, the missing ones restored. A shard is missing where it is None, and where `present` has False.

        >>> shards = bf.TransformCode(data=2, parity=1).encode([b"ab", b"cd"])
        >>> bf.TransformCode(data=2, parity=1).reconstruct([shards[0], b"??", shards[2]], [True, False, True]).tobytes() == shards.tobytes()
        True
        """
        all_shards, flags = self._with_flags(shards, present)
        call("erasure_reconstruct", self.data, self.parity, *self._halves(all_shards), flags, self._space())
        return all_shards

    def _halves(self, shards: Words) -> tuple[Words, Words]:
        """The words of the shards of data, and those of the shards of parity."""
        if shards.shape[1] % 2:
            raise ValueError("expected shards of an even number of bytes")
        words = shards.view(WORDS["u16"])
        return words[: self.data], words[self.data :]

    def _space(self) -> Words:
        """What a call works in."""
        length = np.zeros(1, np.uint64)
        call("erasure_space", self.data, self.parity, length)
        return np.empty(int(length[0]), WORDS["u16"])
