"""Calls of the library for codes that correct errors: of codes over bytes, and of codes over fields of at most 2**16 elements.

Both have the same methods. Words stand in the last axis, or in the first with the axis 0, and have their own length: a code is told how
many of their symbols are no data.
"""

from __future__ import annotations

from typing import Any, Union

import numpy as np

from ._library import WORDS, Words, call
from ._storage import Stored

# What a call writes of a word that is near to no word of the code.
_NOT_CORRECTED = 65535
# From so many words on, those in the last axis are turned to columns, of which the library looks at many at once.
_MANY = 64
# The moduli of bytes whose codes have calls of their own, and the generators of their fields.
BYTES = {0x11D: 2, 0x187: 2, 0x11B: 3}


def symbols_of(value: Any, dtype: Any, bits: int) -> Words:
    """Symbols of so many bits as an array: of an object that lends bytes or a list of such, of elements of a field, or of integers."""
    if isinstance(value, Stored):
        value = value.to_words()
    if isinstance(value, (bytes, bytearray, memoryview)):
        value = np.frombuffer(value, np.uint8)
    if isinstance(value, (list, tuple)) and value and isinstance(value[0], (bytes, bytearray, memoryview)):
        value = [np.frombuffer(it, np.uint8) for it in value]
    symbols = np.asarray(value)
    if symbols.dtype != dtype or bits < 8 * symbols.dtype.itemsize:
        if symbols.dtype.kind not in "biu" or symbols.size and not 0 <= int(symbols.min()) <= int(symbols.max()) < 1 << bits:
            raise ValueError(f"expected symbols, which are integers from 0 to {(1 << bits) - 1}")
        symbols = symbols.astype(dtype)
    return np.asarray(symbols, order="C")


def flags_of(erasures: Any, shape: tuple[int, ...]) -> Words:
    """What says of each symbol of words of that shape whether it is erased, or nothing where none is."""
    if erasures is None:
        return np.zeros(0, np.uint8)
    return np.ascontiguousarray(np.broadcast_to(np.asarray(erasures, bool), shape)).view(np.uint8)


def numbers_of(counts: Words) -> Words:
    """How many symbols of words changed, -1 for a word that is near to none."""
    numbers = counts.astype(np.int64)
    numbers[numbers == _NOT_CORRECTED] = -1
    return numbers


def told_by(flags: Words) -> Words:
    """Truth values of bytes that a call wrote."""
    return np.asarray(flags != 0)


def resized(shape: tuple[int, ...], axis: int, count: int) -> tuple[int, ...]:
    """A shape with another length in the first or last axis."""
    return (count, *shape[1:]) if axis == 0 else (*shape[:-1], count)


class ByteCalls:
    """Codes over bytes, by the modulus of the field and the step of the roots."""

    bits, most = 8, 255
    dtype = np.dtype(np.uint8)

    def __init__(self, modulus: int, first_root: int, root_step: int) -> None:
        self.modulus, self.first_root, self.root_step = modulus, first_root, root_step

    def _call(self, name: str, symbols: int, checks: int, axis: int, *arrays: Words) -> None:
        end = "_interleaved" if axis == 0 else ""
        call(f"code_{name}{end}", self.modulus, symbols, symbols - checks, self.first_root, self.root_step, *arrays)

    @staticmethod
    def _columns(words: Words, axis: int) -> Words | None:
        """The words as columns, where they are many and stand in the last axis."""
        if axis == 0 or words.size < _MANY * words.shape[-1]:
            return None
        return np.ascontiguousarray(np.moveaxis(words, -1, 0))

    def encode(self, words: Words, checks: int, axis: int) -> None:
        """Writes the symbols behind the data."""
        columns = self._columns(words, axis)
        if columns is None:
            self._call("encode", words.shape[axis], checks, axis, words)
        else:
            self._call("encode", columns.shape[0], checks, 0, columns)
            words[..., -checks:] = np.moveaxis(columns[-checks:], 0, -1)

    def syndromes(self, words: Words, checks: int, axis: int) -> Words:
        """The values at the roots, in the same axis."""
        columns = self._columns(words, axis)
        if columns is not None:
            return np.ascontiguousarray(np.moveaxis(self.syndromes(columns, checks, 0), 0, -1))
        values = np.empty(resized(words.shape, axis, checks), self.dtype)
        self._call("syndromes", words.shape[axis], checks, axis, words, values)
        return values

    def are_words(self, words: Words, checks: int, axis: int) -> Words:
        """Whether words are words of the code."""
        columns = words if axis == 0 else self._columns(words, axis)
        if columns is not None:
            return np.asarray(~self.syndromes(columns, checks, 0).any(axis=0))
        flags = np.empty(words.shape[:-1], np.uint8)
        self._call("are_words", words.shape[-1], checks, axis, words, flags)
        return told_by(flags)

    def correct(self, words: Words, checks: int, erasures: Any, axis: int) -> Words:
        """Corrects words, and tells how many symbols of each changed."""
        if axis == 0:
            received = words.copy()
            values = np.empty(resized(words.shape, 0, checks), self.dtype)
            corrected = np.empty(words.shape[1:], np.uint8)
            self._call("correct", words.shape[0], checks, axis, words, flags_of(erasures, words.shape[:1]), values, corrected)
            return np.where(corrected, (words != received).sum(axis=0), -1)
        columns = self._columns(words, axis) if erasures is None else None
        if columns is not None:
            numbers = self.correct(columns, checks, None, 0)
            words[...] = np.moveaxis(columns, 0, -1)
            return numbers
        counts = np.empty(words.shape[:-1], np.uint16)
        self._call("correct", words.shape[-1], checks, axis, words, flags_of(erasures, words.shape), counts)
        return numbers_of(counts)


class FieldCalls:
    """Codes over the field with a modulus, by the element whose powers the roots are."""

    most = 65535

    def __init__(self, modulus: int, first_root: int, root: int) -> None:
        self.modulus, self.first_root, self.root, self.bits = modulus, first_root, root, modulus.bit_length() - 1
        self.dtype = np.dtype(np.uint8 if self.bits <= 8 else np.uint16)
        self._words, tail = np.zeros((), WORDS["field"]), np.zeros((), WORDS["u128"])
        tail["words"][0] = modulus ^ 1 << self.bits
        call("field_init", self._words, self.bits, tail)

    def _call(self, name: str, symbols: int, checks: int, *arrays: Words) -> None:
        call(f"field_code_{name}", self._words, symbols, symbols - checks, self.first_root, self.root, *arrays)

    @staticmethod
    def _rows(words: Words, axis: int) -> Words:
        """A copy of words as the library has them: in the last axis, each symbol in 16 bits."""
        return np.array(np.moveaxis(words, axis, -1), np.uint16, order="C")

    def encode(self, words: Words, checks: int, axis: int) -> None:
        """Writes the symbols behind the data."""
        rows = self._rows(words, axis)
        self._call("encode", rows.shape[-1], checks, rows, np.empty(checks + 1, np.uint16))
        np.moveaxis(words, axis, -1)[...] = rows

    def syndromes(self, words: Words, checks: int, axis: int) -> Words:
        """The values at the roots, in the same axis."""
        rows = self._rows(words, axis)
        values = np.empty((*rows.shape[:-1], checks), np.uint16)
        self._call("syndromes", rows.shape[-1], checks, rows, values)
        return np.ascontiguousarray(np.moveaxis(values, -1, axis), self.dtype)

    def are_words(self, words: Words, checks: int, axis: int) -> Words:
        """Whether words are words of the code."""
        rows = self._rows(words, axis)
        flags = np.empty(rows.shape[:-1], np.uint8)
        self._call("are_words", rows.shape[-1], checks, rows, flags)
        return told_by(flags)

    def correct(self, words: Words, checks: int, erasures: Any, axis: int) -> Words:
        """Corrects words, and tells how many symbols of each changed."""
        rows = self._rows(words, axis)
        symbols = rows.shape[-1]
        # In the first axis one flag is for a row of symbols.
        flags = flags_of(erasures, words.shape[:1] if axis == 0 else words.shape)
        if axis == 0 and flags.size:
            flags = flags_of(flags, rows.shape)
        counts = np.empty(rows.shape[:-1], np.uint16)
        space, marks = np.empty(2 * symbols + 5 * checks + 3, np.uint16), np.zeros(2 * symbols, np.bool_)
        self._call("correct", symbols, checks, rows, flags, counts, space, marks, np.empty(symbols, np.uintp))
        np.moveaxis(words, axis, -1)[...] = rows
        return numbers_of(counts)


Calls = Union[ByteCalls, FieldCalls]
