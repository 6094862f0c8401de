"""Linear maps, and the additive transform over Ghash128 and over the levels of the tower of 16 to 128 bits.

The transform's polynomials are s_0(x) = x and s_(j+1)(x) = s_j(x)**2 + s_j(x), which has the degree 2**(j + 1). The products of the
s_j over the set bits j of k, for k from 0 on, are the basis that its coefficients are those of: `from_powers` makes them of the
coefficients of the powers of x, and `to_powers` goes back. Point p is the shift, and Cantor vector b for each set bit b of p.
"""

import math
from typing import Any, TypeVar, overload

import numpy as np

from ._arrays import A, FieldArray
from ._fields import BinaryField16, BinaryField32, BinaryField64, BinaryField128, Ghash128
from ._library import call, packed
from ._workers import at_each, set_workers

# The levels of the tower over which there is a transform.
_LEVELS = (BinaryField16, BinaryField32, BinaryField64, BinaryField128)
L = TypeVar("L", BinaryField16, BinaryField32, BinaryField64, BinaryField128)


def _vector(values: Any, field: type[A]) -> A:
    """A copy of an array of one dimension."""
    result = field._operand(values).copy()
    if result.ndim != 1:
        raise ValueError("expected an array of one dimension")
    return result


def _transformed(function: str, values: Any, shift: Any, workers: int | None) -> Any:
    """What a transform makes of an array along its last axis, over its field where that is a level, and else over Ghash128."""
    field: Any = type(values) if isinstance(values, _LEVELS) else Ghash128
    result, scalar = field._operand(values).copy(), field._operand(shift)._scalar()
    count, most = result.shape[-1] if result.ndim else 0, min(40, field.degree)
    if count < 1 or count & count - 1 or count > 1 << most:
        raise ValueError(f"a transform over {field.__name__} takes 2**m elements along the last axis, m from 0 to {most}, and not {count}")
    rows = result._words.reshape(math.prod(result.shape[:-1]), result.shape[-1])
    with set_workers(workers):
        at_each(lambda row: call(f"{field._name}_{function}", row, scalar), list(rows))
    return result


@overload
def transform(coefficients: L, shift: Any = 0, workers: int | None = None) -> L: ...


@overload
def transform(coefficients: Any, shift: Any = 0, workers: int | None = None) -> Ghash128: ...


def transform(coefficients: Any, shift: Any = 0, workers: int | None = None) -> Any:
    """The value at each of 2**m points of the polynomial with these 2**m coefficients, for an m from 0 to 40 that is at most the bits of
    the field: that of an array of BinaryField16 to BinaryField128, and else Ghash128. Coefficient k is that of the product of the s_j
    over the set bits j of k, where s_0(x) = x and s_(j+1)(x) = s_j(x)**2 + s_j(x); `from_powers` makes such coefficients of those of the
    powers of x. `transform_points` has the points. An array of more dimensions is transformed along its last axis, by as many threads
    as there are workers.

    >>> F = bf.Ghash128
    >>> c = F([1, 2, 3, 4])
    >>> bool((bf.transform(bf.from_powers(c)) == F.evaluate(c, bf.transform_points(4))).all())
    True
    """
    return _transformed("transform", coefficients, shift, workers)


@overload
def inverse_transform(values: L, shift: Any = 0, workers: int | None = None) -> L: ...


@overload
def inverse_transform(values: Any, shift: Any = 0, workers: int | None = None) -> Ghash128: ...


def inverse_transform(values: Any, shift: Any = 0, workers: int | None = None) -> Any:
    """The coefficients, as `transform` takes them, of the polynomial that has these values at the 2**m points. `to_powers` makes the
    coefficients of the powers of x of them. An array of more dimensions goes as in `transform`.

    >>> bf.inverse_transform(bf.transform([1, 2, 3, 4]))
    Ghash128([0x1, 0x2, 0x3, 0x4])
    """
    return _transformed("inverse_transform", values, shift, workers)


@overload
def transform_points(count: int, shift: L) -> L: ...


@overload
def transform_points(count: int, shift: Any = 0) -> Ghash128: ...


def transform_points(count: int, shift: Any = 0) -> Any:
    """The points of a transform of `count` values, a power of two: the values of the polynomial s_0. They are of the field of
    the shift where that is a level.

    >>> bf.transform_points(2, shift=4)
    Ghash128([0x4, 0x5])
    """
    if not isinstance(count, (int, np.integer)) or count < 1 or count & count - 1:
        raise ValueError("the number of points must be a power of two")
    field: Any = type(shift) if isinstance(shift, _LEVELS) else Ghash128
    if count == 1:
        return field._operand(shift).reshape(1).copy()
    coefficients = field.zeros(count)
    coefficients[1] = 1
    return transform(coefficients, shift)


def from_powers(coefficients: A) -> A:
    """The coefficients that `transform` takes of the polynomial whose coefficients of 1, x, x**2 and so on are these, 2**m of any field,
    along the last axis.

    >>> bf.from_powers(bf.Ghash128([0, 0, 1, 0]))
    Ghash128([0x0, 0x1, 0x1, 0x0])
    """
    return _changed(coefficients, 1)


def to_powers(coefficients: A) -> A:
    """The coefficients of 1, x, x**2 and so on of the polynomial that `transform` takes with these coefficients, along the last
    axis.

    >>> bf.to_powers(bf.Ghash128([0, 1, 1, 0]))
    Ghash128([0x0, 0x0, 0x1, 0x0])
    """
    return _changed(coefficients, -1)


def _changed(coefficients: A, way: int) -> A:
    """Of each block of 2**(j + 1) coefficients, longest blocks first, the quotient by s_j goes to the upper half and the rest to the lower
    one. A step subtracts the multiples of s_j, which is the sum of x**(2**i) over the i whose bits are among those of j, by half of the
    quotient, the upper half first. The same steps from the last to the first multiply."""
    length = coefficients.shape[-1] if isinstance(coefficients, FieldArray) and coefficients.ndim else 0
    if not length or length & length - 1:
        raise ValueError("expected elements, along the last axis as many as a power of two")
    result = coefficients.copy()
    levels = range(length.bit_length() - 2, 0, -1)
    for j, start in [(j, start) for j in levels for start in (3 << j - 1, 1 << j)][::way]:
        blocks, half = result.reshape(result.size >> j + 1, 2 << j), 1 << j - 1
        for i in range(j):
            if i & j == i:
                low = start - (1 << j) + (1 << i)
                blocks[:, low : low + half] += blocks[:, start : start + half]
    return result


def field_of_product(field: type[FieldArray], count: int) -> Any:
    """A field that contains this one or is isomorphic to it, with a transform of `count` values; None where there is none."""
    if field is Ghash128:
        return field
    fit = (it for it in _LEVELS if it.degree % field.degree == 0 and it.order >= count)
    return next(fit, None)


def product_by_transforms(left: A, right: A, field: Any) -> A:
    """The coefficients of the product of two polynomials, each by those of 1, x, x**2 and so on, by their values in a field as
    `field_of_product` names it."""
    count = left.size + right.size - 1
    values = []
    for it in (left, right):
        coefficients = field.zeros(1 << (count - 1).bit_length())
        coefficients[: it.size] = it.to(field)
        values.append(transform(from_powers(coefficients)))
    values[0] *= values[1]
    return to_powers(inverse_transform(values[0]))[:count]._restricted(type(left))  # type: ignore[no-any-return]


def butterfly_forward(low: Ghash128, high: Ghash128, scalar: Any) -> None:
    """low += scalar * high, and then high += low, in both arrays.

    >>> a = bf.Ghash128([1, 2])
    >>> bf.butterfly_forward(a[:1], a[1:], 2)
    >>> a
    Ghash128([0x5, 0x7])
    """
    _butterfly("forward", low, high, scalar)


def butterfly_inverse(low: Ghash128, high: Ghash128, scalar: Any) -> None:
    """high += low, and then low += scalar * high, in both arrays: it inverts `butterfly_forward` by the same scalar.

    >>> low, high = bf.Ghash128([7, 8]), bf.Ghash128([9, 10])
    >>> bf.butterfly_forward(low, high, 5)
    >>> bf.butterfly_inverse(low, high, 5)
    >>> low, high
    (Ghash128([0x7, 0x8]), Ghash128([0x9, 0xa]))
    """
    _butterfly("inverse", low, high, scalar)


def _butterfly(way: str, low: Ghash128, high: Ghash128, scalar: Any) -> None:
    if not isinstance(low, Ghash128) or not isinstance(high, Ghash128):
        raise TypeError("low and high must be arrays of Ghash128")
    if np.shares_memory(low._words, high._words):
        raise ValueError("low and high must not share elements")
    words = packed(low._words), packed(high._words)
    call(f"g128_butterfly_{way}", *words, Ghash128._operand(scalar)._words)
    for it, made in zip((low, high), words):
        if made is not it._words:
            it._words[...] = made


def low_stages(values: Any, shifts: Any, basis: Any, first_run: int = 0) -> Ghash128:
    """What the four lowest stages make of runs of sixteen values, the first of which is run `first_run`. The factor of stage j at
    place p is shifts[j], and basis[t] for each set bit t of p >> (j + 1).

    >>> bf.low_stages([0] * 8 + [1] + [0] * 7, [2, 3, 4, 5], [6, 7, 8])[[0, 8]]
    Ghash128([0x5, 0x4])
    """
    result, factors = _vector(values, Ghash128), _vector(shifts, Ghash128)
    if not 0 <= first_run < 1 << 64:
        raise ValueError("first_run must be from 0 to 2**64 - 1")
    if result.size % 16 or factors.size != 4:
        raise ValueError(f"expected runs of sixteen values and four shifts, and not {result.size} and {factors.size}")
    call("g128_low_stages", result._words, factors._words, Ghash128._operand(basis)._words, first_run)
    return result


def linear_map(values: Any, images: A, workers: int | None = None) -> A:
    """For each value the sum of the images at its set bits: 8 images of Rijndael8b, or 128 of Ghash128.

    >>> bf.linear_map([5], bf.Rijndael8b([1, 2, 3, 4, 5, 6, 7, 8]))
    Rijndael8b([0x2])
    """
    if not isinstance(images, FieldArray) or images._name not in ("r8", "g128"):
        raise TypeError("images must be an array of Rijndael8b or Ghash128")
    if images.shape != (images.degree,):
        raise ValueError(f"a linear map over {type(images).__name__} has {images.degree} images, and not an array of the shape {images.shape}")
    values = images._operand(values)
    result = images.zeros(values.shape)
    with set_workers(workers):
        call(f"{images._name}_linear_map", values._words, images._words, result._words)
    return result
