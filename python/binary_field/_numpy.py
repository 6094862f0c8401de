"""What numpy's functions are over arrays of elements.

A ufunc is a function of the method that is called, its operands and its options; a function that has none here is refused with a
TypeError, so that none computes with representations as integers.
"""

from __future__ import annotations

from typing import Any, Callable, Sequence

import numpy as np

from . import _matrices
from ._arrays import UFUNCS, FieldArray, implement
from ._transforms import field_of_product, product_by_transforms

Function = Callable[..., Any]

# Where both operands of a convolution have so many elements, transforms take no longer than products of all pairs.
_BY_TRANSFORMS = 256


def _field_of(*values: Any) -> type[FieldArray]:
    """The field of the first array of elements."""
    for it in values:
        if isinstance(it, FieldArray):
            return type(it)
    raise TypeError("an array of elements is wanted")


# ---- ufuncs


def _computed(function: Function, operands: Sequence[FieldArray], out: FieldArray | None = None, where: Any = True) -> FieldArray:
    """A function of the operands at the places where `where` is true; others stay in `out`, and are 0 without one."""
    field = type(operands[0])
    if out is not None:
        field._operand(out)
    if where is True:
        return function(*operands, out=out)  # type: ignore[no-any-return]
    shape = field._shape_of(*operands, field.zeros(np.shape(where)), out=out)
    result = field.zeros(shape) if out is None else out
    chosen = np.broadcast_to(where, shape)
    result[chosen] = function(*(it._broadcast(shape)[chosen] for it in operands))
    return result


def _at(function: Function, values: FieldArray, places: Any, *others: FieldArray) -> None:
    """Puts a function of each element at some places, and of another one, in its place, one after the other where places come again."""
    at = np.arange(values.size).reshape(values.shape)[places]
    flat, given = at.ravel(), [it._broadcast(at.shape).ravel() for it in others]
    order = np.argsort(flat, kind="stable")
    turn = np.empty(flat.size, np.intp)
    turn[order] = np.arange(flat.size) - np.searchsorted(flat[order], flat[order])
    for now in range(int(turn.max(initial=-1)) + 1):
        chosen = turn == now
        made = function(values._of(values._words.flat[flat[chosen]]), *(it[chosen] for it in given))
        values._words.flat[flat[chosen]] = made._words


def _outer(function: Function, left: FieldArray, right: FieldArray, **options: Any) -> Any:
    return function(left.reshape(left.shape + (1,) * right.ndim), right, **options)


def _ufunc(function: Function, is_of_two: bool = False, reduce: Function | None = None, accumulate: Function | None = None) -> Function:
    """A ufunc that computes place by place."""

    def called(method: str, inputs: Sequence[Any], options: dict[str, Any]) -> Any:
        out = options.pop("out", (None,))[0]
        if out is not None:
            options["out"] = out
        if method == "reduce" and reduce:
            return reduce(*inputs, **{"axis": 0} | options)
        if method == "accumulate" and accumulate:
            if not np.ndim(inputs[0]) or options.get("axis", 0) is None:
                raise ValueError("an array is accumulated along one axis")
            return accumulate(*inputs, **{"axis": 0} | options)
        if not (out is None or isinstance(out, FieldArray)) or options.keys() - {"out", "where"}:
            return NotImplemented
        if method == "at" and isinstance(inputs[0], FieldArray):
            return _at(function, inputs[0], inputs[1], *map(inputs[0]._other, inputs[2:]))
        field = _field_of(*inputs, out)
        operands = [field._other(it) for it in inputs]
        if method == "outer" and is_of_two:
            return _outer(lambda *both, **more: _computed(function, both, **more), operands[0], operands[1], **options)
        return _computed(function, operands, **options) if method == "__call__" else NotImplemented

    return called


def _comparison(function: Function) -> Function:
    """A ufunc with the result of an operator that compares."""

    def called(method: str, inputs: Sequence[Any], options: dict[str, Any]) -> Any:
        left, right = inputs
        if options or method not in ("__call__", "outer"):
            return NotImplemented
        if method == "outer":
            field = _field_of(left, right)
            return _outer(function, field._operand(left), field._operand(right))
        np.broadcast_shapes(np.shape(left), np.shape(right))
        return function(left, right) if isinstance(left, FieldArray) else function(right, left)

    return called


def _power(method: str, inputs: Sequence[Any], options: dict[str, Any]) -> Any:
    base, exponent = inputs
    if not isinstance(base, FieldArray):
        return NotImplemented
    return _ufunc(lambda it, out=None: it._left_in(out, it**exponent))(method, [base], options) if method == "__call__" else NotImplemented


def _log(method: str, inputs: Sequence[Any], options: dict[str, Any]) -> Any:
    return NotImplemented if options or method != "__call__" else _field_of(*inputs)._operand(inputs[0]).log()


def _matmul(method: str, inputs: Sequence[Any], options: dict[str, Any]) -> Any:
    out, field = options.pop("out", (None,))[0], _field_of(*inputs)
    if options or method != "__call__":
        return NotImplemented
    return field._left_in(out, _matrices.product(field._other(inputs[0]), field._other(inputs[1])))


def _add(left: FieldArray, right: FieldArray, out: FieldArray | None = None) -> FieldArray:
    return left._elementwise("add", right, out)


def _multiply(left: FieldArray, right: FieldArray, out: FieldArray | None = None) -> FieldArray:
    return left._elementwise("multiply", right, out)


def _divide(left: FieldArray, right: FieldArray, out: FieldArray | None = None) -> FieldArray:
    return left._quotient(right, out)


def _same(values: FieldArray, out: FieldArray | None = None) -> FieldArray:
    return values._left_in(out, values.copy())


UFUNCS.update({
    np.add: _ufunc(_add, True, FieldArray.sum, FieldArray.cumsum),
    np.subtract: _ufunc(_add, True),
    np.multiply: _ufunc(_multiply, True, FieldArray.prod, FieldArray.cumprod),
    np.true_divide: _ufunc(_divide, True),
    np.square: _ufunc(FieldArray.square),
    np.sqrt: _ufunc(FieldArray.sqrt),
    np.reciprocal: _ufunc(FieldArray.reciprocal),
    np.negative: _ufunc(_same),
    np.positive: _ufunc(_same),
    np.log: _log,
    np.power: _power,
    np.matmul: _matmul,
    np.equal: _comparison(lambda left, right: left == right),
    np.not_equal: _comparison(lambda left, right: left != right),
})


# ---- functions that move elements, and compute nothing: they are those of the words


def _words_of(field: type[FieldArray], value: Any) -> Any:
    if isinstance(value, FieldArray):
        return field._operand(value)._words
    if isinstance(value, (list, tuple)) and any(isinstance(it, FieldArray) for it in value):
        return type(value)(field._other(it)._words for it in value)
    if isinstance(value, list) and any(isinstance(it, list) for it in value):
        return [_words_of(field, it) for it in value]
    return value


def _all_of(value: Any) -> Any:
    """A value, and those in its lists."""
    yield value
    for it in value if isinstance(value, (list, tuple)) else ():
        yield from _all_of(it)


def _elements_of(field: type[FieldArray], words: Any) -> Any:
    if isinstance(words, (list, tuple)):
        return type(words)(_elements_of(field, it) for it in words)
    if words.dtype != field._dtype():
        raise TypeError(f"elements of {field.__name__} cannot be mixed with an array of {words.dtype}")
    return field._of(words)


# Where a function that moves elements has them: at its first place if nothing else is said, or at every place.
_PLACES: dict[Any, Sequence[int]] = {
    it: range(64) for it in (np.atleast_1d, np.atleast_2d, np.atleast_3d, np.broadcast_arrays, np.meshgrid)
} | {np.compress: (1,), np.extract: (1,)}
# The names of these places, and that of an array that is written.
_NAMES = ("A", "a", "arr", "array", "arrays", "ary", "m", "out", "seq", "tup", "v", "x")


def _moving(function: Function) -> Function:
    places = _PLACES.get(function, (0,))

    def moved(*arguments: Any, **options: Any) -> Any:
        others = [it for at, it in enumerate(arguments) if at not in places] + [it for name, it in options.items() if name not in _NAMES]
        if any(isinstance(it, FieldArray) for it in _all_of(others)):
            raise TypeError(f"{function.__name__}: elements are moved, and are neither places nor numbers nor conditions")
        field = _field_of(*_all_of([*arguments, *options.values()]))
        result = function(*(_words_of(field, it) for it in arguments), **{name: _words_of(field, it) for name, it in options.items()})
        out = options.get("out")
        return _elements_of(field, result) if out is None else out

    return moved


_MOVING: tuple[Any, ...] = (
    np.array_split, np.atleast_1d, np.atleast_2d, np.atleast_3d, np.block, np.broadcast_arrays, np.broadcast_to, np.column_stack, np.compress,
    np.concatenate, np.copy, np.delete, np.diag, np.diagflat, np.diagonal, np.dstack, np.expand_dims, np.extract, np.flip, np.fliplr, np.flipud,
    np.hsplit, np.hstack, np.lib.stride_tricks.sliding_window_view, np.meshgrid, np.moveaxis, np.ravel, np.repeat, np.reshape, np.resize, np.roll, np.rollaxis, np.rot90, np.split, np.squeeze, np.stack,
    np.swapaxes, np.take, np.take_along_axis, np.tile, np.transpose, np.tril, np.triu, np.vsplit, np.vstack,
)


# ---- other functions

# Those of the words, as `to_words` gives them, and those of whether elements are not 0.
_ON_WORDS: tuple[Any, ...] = (np.may_share_memory, np.save, np.savez, np.savez_compressed, np.shares_memory)
_ON_NONZERO: tuple[Any, ...] = (np.all, np.any, np.argwhere, np.count_nonzero, np.flatnonzero, np.nonzero)


def _plain(value: Any) -> Any:
    return value.to_words(copy=False) if isinstance(value, FieldArray) else value


def _on_words(function: Function) -> Function:
    def called(*arguments: Any, **options: Any) -> Any:
        return function(*map(_plain, arguments), **{name: _plain(it) for name, it in options.items()})

    return called


def _on_nonzero(function: Function) -> Function:
    return lambda a, *more, **options: function(a._truths(), *more, **options)


def _where(condition: Any, *both: Any) -> Any:
    condition = condition._truths() if isinstance(condition, FieldArray) else condition
    if not both:
        return np.where(condition)
    field = _field_of(*both)
    left, right = (field._other(it)._words for it in both)
    return field._of(np.where(condition, left, right))


def _append(arr: Any, values: Any, axis: Any = None) -> FieldArray:
    field = _field_of(arr, values)
    return field._of(np.append(field._other(arr)._words, field._other(values)._words, axis))


def _whole_product(long: Any, short: Any) -> Any:
    """All coefficients of the product of two polynomials, of which the second has no more than the first."""
    count = long.size + short.size - 1
    larger = field_of_product(type(long), count) if short.size >= _BY_TRANSFORMS else None
    if larger:
        return product_by_transforms(long, short, larger)
    result = long.zeros(count)
    for at in range(short.size):
        result[at : at + long.size].add_scaled(short[at], long)
    return result


def _convolve(a: Any, v: Any, mode: str = "full") -> FieldArray:
    """The coefficients of the product of two polynomials; by `mode` those in the middle alone, as numpy has it."""
    field = _field_of(a, v)
    long, short = sorted((field._other(a), field._other(v)), key=lambda it: -it.size)
    if long.ndim > 1 or short.ndim > 1:
        raise ValueError("a convolution is of arrays of one dimension")
    long, short = long.ravel(), short.ravel()
    if not short.size:
        raise ValueError("a convolution with an empty array is not defined")
    result: FieldArray = _whole_product(long, short)
    whole, middle = (0, result.size), (short.size - 1, long.size - short.size + 1)
    first, length = {"full": whole, "same": ((short.size - 1) // 2, long.size), "valid": middle}[mode]
    return result[first : first + length]


def _array_equal(a1: Any, a2: Any) -> bool:
    return bool(np.shape(a1) == np.shape(a2) and np.all(a1 == a2))


def _filled(name: str) -> Function:
    """Zeros or ones of an array's field, and of its shape where no other is named; of another type of numbers there are none."""

    def filled(a: Any, dtype: Any = None, *, shape: Any = None) -> Any:
        return getattr(type(a), name)(a.shape if shape is None else shape).astype(a.dtype if dtype is None else dtype)

    return filled


def _outer_product(a: Any, b: Any, out: Any = None) -> Any:
    return np.multiply.outer(np.ravel(a), np.ravel(b), out=out)


implement({it: _moving(it) for it in _MOVING})
implement({it: _on_words(it) for it in _ON_WORDS})
implement({it: _on_nonzero(it) for it in _ON_NONZERO})
implement({
    np.append: _append,
    np.array_equal: _array_equal,
    np.convolve: _convolve,
    np.cumprod: lambda a, *more, **options: a.cumprod(*more, **options),
    np.cumsum: lambda a, *more, **options: a.cumsum(*more, **options),
    np.dot: lambda a, b, out=None: _field_of(a, b)._other(a).dot(b, out),
    np.empty_like: _filled("zeros"),
    np.linalg.det: lambda a: _matrices.determinant(a),
    np.linalg.inv: lambda a: _matrices.inverse(a),
    np.linalg.matrix_power: lambda a, n: _matrices.power(a, n),
    np.linalg.matrix_rank: lambda A: _matrices.rank(A),
    np.linalg.multi_dot: lambda arrays: _matrices.product_of_all(arrays),
    np.linalg.solve: lambda a, b: _matrices.solution(a, b),
    np.ndim: lambda a: a.ndim,
    np.ones_like: _filled("ones"),
    np.outer: _outer_product,
    np.prod: lambda a, *more, **options: a.prod(*more, **options),
    np.shape: lambda a: a.shape,
    np.size: lambda a, axis=None: a.size if axis is None else a.shape[axis],
    np.sum: lambda a, *more, **options: a.sum(*more, **options),
    np.trace: lambda a, *more, **options: a.trace(*more, **options),
    np.where: _where,
    np.zeros_like: _filled("zeros"),
})
