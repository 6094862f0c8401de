"""Matrices over GF(2), whose rows the library multiplies and reduces fastest where they are packed in words of 64 bits."""

from __future__ import annotations

from typing import Any

import numpy as np

from ._library import PLACE, call

# Of fewer products of bits the packing takes as long.
_MANY = 1 << 12


def are_many(name: str, *shape: int) -> bool:
    """Whether matrices of a field are packed, where an elimination or a product makes so many products of elements."""
    count = 1
    for it in shape:
        count *= it
    return name == "gf2" and count >= _MANY


def _words_of(matrix: Any) -> Any:
    """The rows of a matrix of the words 0 and 1, packed: column j is bit j % 64 of word j // 64, and the bits behind the columns are 0."""
    rows, columns = matrix.shape
    whole = np.zeros((rows, -(-columns // 64) * 8), np.uint8)
    whole[:, : -(-columns // 8)] = np.packbits(matrix, axis=1, bitorder="little")
    return whole.view("<u8").astype(np.uint64, copy=False)


def _matrix_of(words: Any, columns: int) -> Any:
    """The matrix of rows that are packed."""
    bytes_of = np.ascontiguousarray(words.astype("<u8", copy=False)).view(np.uint8)
    return np.unpackbits(bytes_of, axis=1, count=columns, bitorder="little")


def multiply(left: Any, right: Any) -> Any:
    """The product of two matrices of the words 0 and 1."""
    columns = right.shape[1]
    product = np.empty((len(left), -(-columns // 64)), np.uint64)
    call("bit_matrix_multiply", _words_of(left), _words_of(right), product, len(left), len(right), columns)
    return _matrix_of(product, columns)


def row_reduce(matrix: Any, rank: Any) -> Any:
    """The reduced row echelon form of a matrix of the words 0 and 1, whose rank goes to an array of one place."""
    rows, columns = matrix.shape
    words = _words_of(matrix)
    call("bit_matrix_row_reduce", words, rows, columns, np.empty(rows, PLACE), rank)
    return _matrix_of(words, columns)
