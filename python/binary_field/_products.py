"""What further functions of numpy are over arrays of elements: products of matrices and tensors, differences, and what fills arrays."""

from __future__ import annotations

import math
from typing import Any, Sequence

import numpy as np

from . import _matrices
from ._arrays import FieldArray, implement


def _both(a: Any, b: Any) -> tuple[Any, Any]:
    """Two operands, of which one has elements."""
    field = type(a if isinstance(a, FieldArray) else b)
    return field._other(a), field._other(b)


def _vdot(a: Any, b: Any) -> Any:
    left, right = _both(a, b)
    return left.ravel().dot(right.ravel())


def _inner(a: Any, b: Any) -> Any:
    """The sums of products over the last axis of both."""
    left, right = _both(a, b)
    return left * right if not left.ndim or not right.ndim else _tensordot(left, right, (-1, -1))


def _tensordot(a: Any, b: Any, axes: Any = 2) -> Any:
    """The sums of products over some axes of each: one product of two matrices."""
    left, right = _both(a, b)
    if isinstance(axes, (int, np.integer)):
        axes = range(left.ndim - int(axes), left.ndim), range(int(axes))
    of_left, of_right = axes
    summed = [_places(of_left, left.ndim), _places(of_right, right.ndim)]
    lengths = [[array.shape[it] for it in places] for array, places in zip((left, right), summed)]
    if lengths[0] != lengths[1]:
        raise ValueError("shape-mismatch for sum")
    kept = [[it for it in range(array.ndim) if it not in places] for array, places in zip((left, right), summed)]
    rows, columns = ([array.shape[it] for it in places] for array, places in zip((left, right), kept))
    inner = math.prod(lengths[0])
    left = left.transpose(*kept[0], *summed[0]).reshape(math.prod(rows), inner)
    right = right.transpose(*summed[1], *kept[1]).reshape(inner, math.prod(columns))
    return _matrices.product(left, right).reshape((*rows, *columns))


def _places(axes: Any, ndim: int) -> list[int]:
    """Axes as numbers from 0 on."""
    numbers = [int(it) for it in (axes if isinstance(axes, Sequence) else [axes])]
    if any(not -ndim <= it < ndim for it in numbers):
        raise IndexError(f"an axis is not among {ndim}")
    return [it % ndim for it in numbers]


def _kron(a: Any, b: Any) -> Any:
    """The blocks that each element of the first makes of the second."""
    left, right = _both(a, b)
    ndim = max(left.ndim, right.ndim)
    left, right = (it.reshape((1,) * (ndim - it.ndim) + it.shape) for it in (left, right))
    pairs = np.multiply.outer(left, right)
    order = [at for place in range(ndim) for at in (place, place + ndim)]
    return pairs.transpose(*order).reshape([x * y for x, y in zip(left.shape, right.shape)])


def _vander(x: Any, N: int | None = None, increasing: bool = False) -> Any:  # pylint: disable=invalid-name
    """The powers of each element of a vector, from the highest to 1, or from 1 on."""
    if x.ndim != 1:
        raise ValueError("x must be a one-dimensional array or sequence.")
    made = _matrices.powers(x, len(x) if N is None else N)
    return made if increasing else made[:, ::-1]


def _diff(a: Any, n: int = 1, axis: int = -1) -> Any:
    """The differences of neighbours along an axis, n times."""
    if n < 0:
        raise ValueError(f"order must be non-negative but got {n}")
    result = np.moveaxis(a, axis, 0)
    for _ in range(n):
        result = result[1:] - result[:-1]
    return np.moveaxis(result, 0, axis)


def _full_like(a: Any, fill_value: Any, *, shape: Any = None) -> Any:
    result = np.zeros_like(a, shape=shape)
    result[...] = fill_value
    return result


def _copyto(dst: Any, src: Any, *, where: Any = True) -> None:
    """Elements at the places where `where` is true."""
    if not isinstance(dst, FieldArray):
        raise TypeError("elements have no place in an array of numbers")
    np.copyto(dst._words, dst._operand(src)._words, where=where)


def _fill_diagonal(a: Any, val: Any, wrap: bool = False) -> None:
    """The value, or values one after the other, at equal places of all axes."""
    np.fill_diagonal(a._words, a._operand(val)._words, wrap)


def _polyval(p: Any, x: Any) -> Any:
    """The value of the polynomial whose coefficients begin with the highest power."""
    coefficients, points = _both(p, x)
    return coefficients.evaluate(coefficients[::-1], points)


implement({
    np.copyto: _copyto,
    np.diff: _diff,
    np.fill_diagonal: _fill_diagonal,
    np.full_like: _full_like,
    np.inner: _inner,
    np.kron: _kron,
    np.polyval: _polyval,
    np.tensordot: _tensordot,
    np.vander: _vander,
    np.vdot: _vdot,
})
