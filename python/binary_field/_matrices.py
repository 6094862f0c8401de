"""Linear algebra over matrices in the last two axes, by Gauss' elimination (Golub and Van Loan, Matrix Computations, chapter 3).

In a field each pivot that is not 0 is as good as another, so that the first one is taken, and a result is exact. The library takes one
matrix in a call; a stack of many small ones is multiplied or eliminated at once by numpy, a column at a time.
"""

from __future__ import annotations

import functools
import math
import operator
from typing import Any, TypeVar

import numpy as np

from . import _bits
from ._facts import Facts
from ._library import PLACE, Words, call, packed

M = TypeVar("M", bound="Matrices")

# Rows of so many bytes are added one by one, by a call each; shorter ones all at once, by products of all pairs.
_LONG_ROW = 1 << 12

# The library takes each matrix of a stack of at most so many for each column; numpy takes a larger stack at once.
_FEW = 4


class Matrices(Facts):
    """What arrays of elements are as matrices."""

    __slots__ = ()

    # ---- making

    @classmethod
    def Identity(cls: type[M], size: int) -> M:
        """The matrix with ones on its diagonal and zeros elsewhere.

        >>> bf.Gf2.Identity(2)
        Gf2([[0x1, 0x0], [0x0, 0x1]])
        """
        return cls(np.eye(size, dtype=np.uint8))

    @classmethod
    def identity(cls: type[M], size: int) -> M:
        """`Identity`, as numpy names it.

        >>> bf.Gf2.identity(2)
        Gf2([[0x1, 0x0], [0x0, 0x1]])
        """
        return cls.Identity(size)

    @classmethod
    def Vandermonde(cls: type[M], element: Any, rows: int, cols: int) -> M:
        """The matrix with the powers of element**i, from the power 0 on, in row i. Those of any points are `np.vander`.

        >>> bf.Rijndael8b.Vandermonde(2, 3, 3)
        Rijndael8b([[0x1, 0x1, 0x1], [0x1, 0x2, 0x4], [0x1, 0x4, 0x10]])
        """
        points = powers(cls._single(element), rows)
        return cls._operand(powers(points, cols))

    @classmethod
    def Cauchy(cls: type[M], x: Any, y: Any) -> M:
        """The matrix with 1 / (x[i] + y[j]) in row i and column j, of which each square part has an inverse where the elements of x
        differ, and those of y. ZeroDivisionError where x and y share an element.

        >>> bf.Rijndael8b.Cauchy([2, 3], [0, 1])
        Rijndael8b([[0x8d, 0xf6], [0xf6, 0x8d]])
        """
        left, right = cls._operand(x), cls._operand(y)
        if left.ndim != 1 or right.ndim != 1:
            raise ValueError("the elements of a Cauchy matrix must have one dimension")
        sums: Any = np.add.outer(left, right)
        result: M = sums.reciprocal()
        return result

    # ---- spaces

    def _one_matrix(self: M) -> M:
        if self.ndim != 2:
            raise ValueError(f"a matrix is wanted, and the shape is {self.shape}")
        return self

    def row_reduce(self: M, ncols: int | None = None) -> M:
        """The reduced row echelon form of a matrix, whose pivots are among the first `ncols` columns, by default all.

        >>> bf.Rijndael8b([[2, 4, 6], [1, 2, 1]]).row_reduce()
        Rijndael8b([[0x1, 0x2, 0x0], [0x0, 0x0, 0x1]])
        """
        matrix = self._one_matrix()
        return echelon(matrix)[0] if ncols is None else reduced(matrix, operator.index(ncols))[0]

    def row_space(self: M) -> M:
        """A basis of the combinations of a matrix's rows: the rows of its reduced echelon form that are not 0.

        >>> bf.Gf2([[1, 1], [1, 1]]).row_space()
        Gf2([[0x1, 0x1]])
        """
        form, ranks = echelon(self._one_matrix())
        return form[: int(ranks)]

    def column_space(self: M) -> M:
        """A basis of the combinations of a matrix's columns, whose vectors are the rows of the result.

        >>> bf.Rijndael8b([[1, 2], [3, 6]]).column_space()
        Rijndael8b([[0x1, 0x3]])
        """
        return self._transposed().row_space()

    def left_null_space(self: M) -> M:
        """A basis of the vectors x with x @ A = 0, as the rows of the result.

        >>> bf.Gf2([[1, 1], [1, 1], [0, 1]]).left_null_space()
        Gf2([[0x1, 0x1, 0x0]])
        """
        matrix: Any = self._one_matrix()
        rows, columns = self.shape
        # Each row stands beside the combination that it is.
        both: Any = echelon(np.concatenate([matrix, matrix.Identity(rows)], axis=1))[0]
        basis: M = both[~both[:, :columns]._truths().astype(bool).any(axis=1), columns:]
        return basis

    def null_space(self: M) -> M:
        """A basis of the vectors x with A @ x = 0, as the rows of the result.

        >>> a = bf.Rijndael8b([[1, 2, 3]])
        >>> a.null_space()
        Rijndael8b([[0x1, 0x0, 0xf6], [0x0, 0x1, 0xf7]])
        >>> a @ a.null_space().T
        Rijndael8b([[0x0, 0x0]])
        """
        return self._transposed().left_null_space()

    def _transposed(self: M) -> M:
        return self._one_matrix().transpose()

    # ---- inverses, determinants and ranks, as np.linalg has them

    def inv(self: M) -> M:
        """The inverse of each matrix in the last two axes; LinAlgError where one has none.

        >>> bf.Rijndael8b([[1, 2], [3, 4]]).inv()
        Rijndael8b([[0x2, 0x1], [0x8c, 0x8d]])
        """
        result: M = inverse(self)
        return result

    def det(self: M) -> M:
        """The determinant of each matrix in the last two axes.

        >>> bf.Rijndael8b([[1, 2], [3, 4]]).det()
        Rijndael8b(0x2)
        """
        result: M = determinant(self)
        return result

    def rank(self) -> Any:
        """The rank of each matrix in the last two axes, an integer of a single one.

        >>> int(bf.Rijndael8b([[1, 2], [3, 6]]).rank())
        1
        """
        return rank(self)

    # ---- decompositions

    def lu_decompose(self: M) -> tuple[M, M]:
        """The lower triangular matrix with ones on its diagonal and the upper triangular one whose product this matrix is. ValueError
        where there are none: `plu_decompose` always has some.

        >>> low, high = bf.Rijndael8b([[1, 2], [3, 4]]).lu_decompose()
        >>> low, high
        (Rijndael8b([[0x1, 0x0], [0x3, 0x1]]), Rijndael8b([[0x1, 0x2], [0x0, 0x2]]))
        """
        return _lower_and_upper(self._one_matrix(), False)[1:]

    def plu_decompose(self: M) -> tuple[M, M, M]:
        """A matrix that moves rows, and a lower and an upper triangular one as those of `lu_decompose`, whose product this matrix is.

        >>> a = bf.Rijndael8b([[0, 2], [3, 4]])
        >>> moved, low, high = a.plu_decompose()
        >>> moved
        Rijndael8b([[0x0, 0x1], [0x1, 0x0]])
        >>> np.array_equal(moved @ low @ high, a)
        True
        """
        order, low, high = _lower_and_upper(self._one_matrix(), True)
        moved: Any = type(self).zeros((order.size, order.size))
        moved[order, np.arange(order.size)] = 1
        return moved, low, high


# ---- elimination


def powers(elements: Any, count: int) -> Any:
    """The powers 0 to count - 1 of each element, along a last axis."""
    result = elements.ones((*elements.shape, count))
    if count > 1:
        result[..., 1:] = elements[..., np.newaxis]
    return result.cumprod(axis=-1)


def _add_multiples(matrices: Any, factors: Any, rows: Any) -> None:
    """Adds to each row of each matrix of a stack a multiple of the row that belongs to its matrix, in this array."""
    if rows.shape[-1] * rows.dtype.itemsize < _LONG_ROW:
        matrices += factors[..., np.newaxis] * rows[:, np.newaxis]
        return
    for at, row in np.argwhere(factors):
        matrices[at, row].add_scaled(factors[at, row], rows[at])


def _are_few(count: int, columns: int) -> bool:
    """Whether so many matrices are taken one by one."""
    return count <= _FEW * columns


def product(left: M, right: M) -> M:
    """The product of matrices in the last two axes, with broadcasting of the others: by dot products of rows and columns where these are
    longer than the result has places, else by the library, and of a stack of many by sums of multiples of rows."""
    if not left.ndim or not right.ndim or left.shape[-1] != right.shape[-2 if right.ndim > 1 else 0]:
        raise ValueError(f"cannot multiply arrays of shapes {left.shape} and {right.shape}")
    rows: Any = left if left.ndim > 1 else left.reshape(1, -1)
    columns: Any = right if right.ndim > 1 else right.reshape(-1, 1)
    shape, inner = np.broadcast_shapes(rows.shape[:-2], columns.shape[:-2]), rows.shape[-1]
    size = math.prod(shape)
    rows, columns = (np.broadcast_to(it, shape + it.shape[-2:]).reshape(size, *it.shape[-2:]) for it in (rows, columns))
    result: Any = left.zeros((size, rows.shape[1], columns.shape[2]))
    if result.size <= inner:
        rows, turned = packed(rows._words), packed(columns._words.swapaxes(1, 2))
        for at, row, column in np.ndindex(result.shape):
            call(f"{left._name}_dot_product", rows[at, row], turned[at, column], result._words[at, row, column, np.newaxis])
    elif _are_few(size, inner):
        shape_of_each = rows.shape[1], inner, columns.shape[2]
        rows, columns = packed(rows._words), packed(columns._words)
        for at in range(size):
            if _bits.are_many(left._name, *shape_of_each):
                result._words[at] = _bits.multiply(rows[at], columns[at])
            else:
                call(f"{left._name}_matrix_multiply", rows[at], columns[at], result._words[at], *shape_of_each)
    else:
        for at in range(inner):
            _add_multiples(result, rows[:, :, at], columns[:, at])
    kept: Any = (..., 0 if left.ndim == 1 else slice(None), 0 if right.ndim == 1 else slice(None))
    whole: M = result.reshape(*shape, *result.shape[1:])[kept]
    return whole


def reduced(matrices: M, columns: int) -> tuple[M, Any, Any]:
    """The reduced row echelon forms of a stack of matrices, whose pivots are among so many columns, the rank of each, and the product of
    its pivots."""
    if not 0 <= columns <= matrices.shape[-1]:
        raise ValueError(f"there are no {columns} columns in matrices of the shape {matrices.shape}")
    result, shape = matrices.copy(), matrices.shape[:-2]
    stack: Any = result.reshape(math.prod(shape), *matrices.shape[-2:])
    ranks, pivots = np.zeros(len(stack), np.intp), stack.ones(len(stack))
    for column in range(columns):
        is_left = stack[:, :, column]._truths().astype(bool) & (np.arange(stack.shape[1]) >= ranks[:, np.newaxis])
        found = np.flatnonzero(is_left.any(axis=1))
        if found.size:
            pivots[found] *= _reduce_column(stack, column, found, is_left[found].argmax(axis=1), ranks[found])
            ranks[found] += 1
    return result, ranks.reshape(shape)[()], pivots.reshape(shape)


def echelon(matrices: M) -> tuple[M, Any]:
    """The reduced row echelon forms of a stack of matrices, and the rank of each."""
    shape, (rows, columns) = matrices.shape[:-2], matrices.shape[-2:]
    count = math.prod(shape)
    if not _are_few(count, columns):
        return reduced(matrices, columns)[:2]
    result, ranks, pivots = matrices.copy(), np.zeros(count, PLACE), np.empty(rows, PLACE)
    stack: Any = result.reshape(count, rows, columns)
    for at in range(count):
        if _bits.are_many(matrices._name, rows, rows, columns):
            stack._words[at] = _bits.row_reduce(stack._words[at], ranks[at : at + 1])
        else:
            call(f"{matrices._name}_matrix_row_reduce", stack._words[at], rows, columns, pivots, ranks[at : at + 1])
    return result, ranks.astype(np.intp).reshape(shape)[()]


def _space(words: Words, rows: int, columns: int) -> tuple[Words, Words]:
    """What a call works in: a matrix, and a place for each row."""
    return np.empty((rows, columns), words.dtype), np.empty(rows, PLACE)


def _reduce_column(stack: Any, column: int, found: Any, first: Any, to: Any) -> Any:
    """Clears a column of some matrices of a stack by the row `first` of each, which comes to row `to` with a 1; it has what that was."""
    rows, scalars = stack[found, first, column:], stack[found, first, column]
    stack[found, first, column:] = stack[found, to, column:]
    rows *= scalars.reciprocal()[:, np.newaxis]
    factors = stack[found, :, column]
    factors[np.arange(found.size), to] = 0
    if found.size == len(stack):
        _add_multiples(stack[:, :, column:], factors, rows)
    else:
        rest = stack[found, :, column:]
        _add_multiples(rest, factors, rows)
        stack[found, :, column:] = rest
    stack[found, to, column:] = rows
    return scalars


def _lower_and_upper(matrix: Any, may_move: bool) -> tuple[Any, Any, Any]:
    """Where each row of the product came from, and the lower and the upper triangular matrix."""
    rows, columns = matrix.shape
    order, low, high = np.arange(rows), matrix.Identity(rows), matrix.copy()
    for at in range(min(rows, columns)):
        places = at + np.flatnonzero(high[at:, at])
        if not places.size:
            continue
        if places[0] != at:
            if not may_move:
                raise ValueError("the matrix has no such decomposition without moving rows: plu_decompose() has one")
            both, swapped = [at, int(places[0])], [int(places[0]), at]
            order[both], high[both], low[both, :at] = order[swapped], high[swapped], low[swapped, :at]
        low[at + 1 :, at] = high[at + 1 :, at] / high[at, at]
        _add_multiples(high[np.newaxis, at + 1 :, at:], low[np.newaxis, at + 1 :, at], high[np.newaxis, at, at:].copy())
    return order, low, high


# ---- functions of np.linalg


def _squares(a: Any) -> Any:
    """An array of square matrices."""
    if a.ndim < 2:
        raise np.linalg.LinAlgError(f"{a.ndim}-dimensional array given. Array must be at least two-dimensional")
    if a.shape[-1] != a.shape[-2]:
        raise np.linalg.LinAlgError("Last 2 dimensions of the array must be square")
    return a


def _solved(a: Any, right: Any) -> Any:
    """What the inverse of each matrix takes the columns beside it to."""
    size = a.shape[-1]
    both: Any = echelon(np.concatenate([a, right], axis=-1))[0]
    if not both[..., range(size), range(size)]._truths().all():
        raise np.linalg.LinAlgError("Singular matrix")
    return both[..., size:]


def inverse(a: Any) -> Any:
    """`np.linalg.inv`: the inverse of each matrix."""
    shape, size = _squares(a).shape, a.shape[-1]
    count = math.prod(shape[:-2])
    if not _are_few(count, size):
        return _solved(a, np.broadcast_to(a.Identity(size), shape)).copy()
    words, result = packed(a._words).reshape(count, size, size), a.zeros((count, size, size))
    space, places = _space(words, size, 2 * size)
    for at in range(count):
        try:
            call(f"{a._name}_matrix_inverse", words[at], size, result._words[at], space, places)
        except np.linalg.LinAlgError:
            raise np.linalg.LinAlgError("Singular matrix") from None
    return result.reshape(shape)


def solution(a: Any, b: Any) -> Any:
    """`np.linalg.solve`: the x with a @ x = b, where b is a vector or has matrices in its last two axes."""
    field = type(a if isinstance(a, Matrices) else b)
    a, b = _squares(field._operand(a)), field._operand(b)
    is_vector = b.ndim == 1
    columns = b[:, np.newaxis] if is_vector else b
    if columns.ndim < 2 or columns.shape[-2] != a.shape[-1]:
        raise ValueError(f"matrices of the shape {a.shape} have no solutions of the shape {b.shape}")
    stack = np.broadcast_shapes(a.shape[:-2], columns.shape[:-2])
    a, columns = (np.broadcast_to(it, stack + it.shape[-2:]) for it in (a, columns))
    found = _solved(a, columns).copy()
    return found[..., 0] if is_vector else found


def determinant(a: Any) -> Any:
    """`np.linalg.det`: the determinant of each matrix; of a large stack the product of the pivots, which 2 = 0 spares a sign, or 0 where
    there are too few."""
    shape, size = _squares(a).shape, a.shape[-1]
    count = math.prod(shape[:-2])
    if not _are_few(count, size):
        _, ranks, pivots = reduced(a, size)
        pivots[ranks < size] = 0
        return pivots
    words, result = packed(a._words).reshape(count, size, size), a.zeros(count)
    space, _ = _space(words, size, size)
    for at in range(count):
        call(f"{a._name}_matrix_determinant", words[at], size, space, result._words[at : at + 1])
    return result.reshape(shape[:-2])


def rank(a: Any) -> Any:
    """`np.linalg.matrix_rank`: of fewer than two dimensions whether an element is not 0."""
    if a.ndim < 2:
        return int(a.any())
    return echelon(a)[1]


def power(a: Any, n: int) -> Any:
    """`np.linalg.matrix_power`: of each matrix, or of its inverse where the exponent is negative."""
    exponent = operator.index(n)
    base = inverse(a) if exponent < 0 else _squares(a)
    result = np.broadcast_to(a.Identity(a.shape[-1]), a.shape).copy()
    for bit in f"{abs(exponent):b}":
        result = result @ result
        if bit == "1":
            result = result @ base
    return result


def product_of_all(arrays: Any) -> Any:
    """`np.linalg.multi_dot`: the product from the left, which takes no order that is faster."""
    return functools.reduce(operator.matmul, arrays)
