"""Arrays of dask whose chunks are arrays of elements: computed in pieces, by the threads or processes of dask's schedulers.

    import dask.array as da
    import binary_field.chunks as chunks

    x = chunks.from_array(bf.Ghash128.random((4, 1000), seed=1), (4, 100))
    chunks.sum(chunks.each(np.multiply, x, x), axis=1).compute()

What dask does with chunks without computing, as slices, `.T`, `reshape`, `da.concatenate` and `map_blocks`, it does with these. Where it
computes, it asks numpy for the type that the result of numbers would have, and an element is no number: the functions here name the
type. `each` is for operators and ufuncs.
"""

from __future__ import annotations

import importlib
import sys
from typing import Any, Callable, Sequence

import numpy as np

from ._arrays import FieldArray

_da: Any = importlib.import_module("dask.array")
# What the examples in the texts name, which plain doctest looks up here.
bf, chunks, da = sys.modules[__name__.rpartition(".")[0]], sys.modules[__name__], _da


def _empty(field: type[FieldArray], ndim: int) -> FieldArray:
    """What dask knows a chunk's kind by."""
    return field.zeros((0,) * ndim)


def from_array(elements: FieldArray, chunks: Any = "auto") -> Any:
    """The array of dask that has these elements in chunks of some shape, as `dask.array.from_array` takes it.

    >>> chunks.from_array(bf.Rijndael8b([1, 2, 3]), 2).chunks
    ((2, 1),)
    """
    return _da.from_array(elements, chunks=chunks, meta=_empty(type(elements), elements.ndim))


def from_words(words: Any, field: type[FieldArray]) -> Any:
    """The elements that an array of dask holds as words, such as those of a file; `field.from_words` says which.

    >>> words = da.ones((4, 2), chunks=(2, 2), dtype=np.uint64)
    >>> chunks.from_words(words, bf.Ghash128).compute()
    Ghash128([0x10000000000000001, 0x10000000000000001, 0x10000000000000001, 0x10000000000000001])
    """
    inner = field.zeros(0).to_words().ndim - 1
    if inner:
        words = words.rechunk({words.ndim - 1: -1})
    dropped = [words.ndim - 1] if inner else None
    meta = _empty(field, words.ndim - inner)
    return words.map_blocks(field.from_words, drop_axis=dropped, dtype=meta.dtype, meta=meta)


def to_words(x: Any) -> Any:
    """The words of elements, as `from_words` takes them.

    >>> chunks.to_words(chunks.from_array(bf.Ghash128([1, 2]), 1)).shape
    (2, 2)
    """
    words = type(x._meta).zeros(0).to_words()
    behind = words.shape[1:]
    new_axis = [x.ndim] if behind else None
    return x.map_blocks(_words_of, new_axis=new_axis, chunks=(*x.chunks, *((it,) for it in behind)), dtype=words.dtype, meta=words)


def _words_of(elements: FieldArray) -> Any:
    return elements.to_words()


def each(function: Callable[..., Any], *operands: Any) -> Any:
    """What a function of chunks that goes place by place, as an operator or a ufunc, makes of arrays, with numpy's broadcasting. An element
    or an array beside them is given to each call whole.

    >>> x = chunks.from_array(bf.Rijndael8b([[1, 2], [3, 4]]), (1, 2))
    >>> chunks.each(np.multiply, x, x[0]).compute()
    Rijndael8b([[0x1, 0x4], [0x3, 0x8]])
    >>> chunks.each(np.add, x, bf.Rijndael8b(1)).compute()
    Rijndael8b([[0x0, 0x3], [0x2, 0x5]])
    """
    meta = next(it._meta for it in operands if isinstance(it, _da.Array))
    return _da.map_blocks(function, *operands, dtype=meta.dtype, meta=_empty(type(meta), 0))


def _reduced(chunk: Callable[..., Any], x: Any, axis: Any, keepdims: bool) -> Any:
    return _da.reduction(x, chunk, chunk, axis=axis, keepdims=keepdims, concatenate=True, dtype=x.dtype, meta=x._meta)


def _sum_of(elements: Any, axis: Any, keepdims: bool) -> Any:
    return elements.sum(axis, keepdims=keepdims)


def _product_of(elements: Any, axis: Any, keepdims: bool) -> Any:
    return elements.prod(axis, keepdims=keepdims)


def sum(x: Any, axis: int | Sequence[int] | None = None, keepdims: bool = False) -> Any:  # pylint: disable=redefined-builtin
    """The sum of all elements, or over axes.

    >>> chunks.sum(chunks.from_array(bf.Ghash128([[1, 2], [3, 4]]), (1, 1)), axis=0).compute()
    Ghash128([0x2, 0x6])
    """
    return _reduced(_sum_of, x, axis, keepdims)


def prod(x: Any, axis: int | Sequence[int] | None = None, keepdims: bool = False) -> Any:
    """The product of all elements, or over axes.

    >>> chunks.prod(chunks.from_array(bf.Rijndael8b([[1, 2], [3, 0x80]]), (1, 1)), axis=0).compute()
    Rijndael8b([0x3, 0x1b])
    """
    return _reduced(_product_of, x, axis, keepdims)


def matmul(x: Any, y: Any) -> Any:
    """The product of matrices in the last two axes, of which each array has two at least: the sum over chunks of the products of chunks.

    >>> x = chunks.from_array(bf.Rijndael8b([[1, 2], [3, 4]]), (1, 1))
    >>> chunks.matmul(x, x.T).compute()
    Rijndael8b([[0x5, 0xb], [0xb, 0x15]])
    """
    if x.ndim < 2 or y.ndim < 2 or x.shape[-1] != y.shape[-2]:
        raise ValueError(f"cannot multiply matrices of shapes {x.shape} and {y.shape}")
    ndim = max(x.ndim, y.ndim)
    before, row, column, inner = list(range(ndim - 2)), ndim - 2, ndim - 1, ndim
    places_of_x, places_of_y = [*before[ndim - x.ndim :], row, inner], [*before[ndim - y.ndim :], inner, column]
    meta = _empty(type(x._meta), ndim + 1)
    products = _da.blockwise(
        _product_of_chunks, [*before, row, column, inner], x, places_of_x, y, places_of_y, adjust_chunks={inner: 1}, dtype=x.dtype, meta=meta
    )
    return sum(products, axis=-1)


def _product_of_chunks(x: Any, y: Any) -> Any:
    return (x @ y)[..., np.newaxis]
