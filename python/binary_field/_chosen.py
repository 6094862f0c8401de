"""Fields of 2**m elements modulo an irreducible polynomial that the caller chooses, each a class of arrays.

An array has words of 8 to 128 bits by the degree; the library's functions bf_field_* read and write words of 128, to which and from
which elements are copied.
"""

from __future__ import annotations

import copyreg
import functools
import math
import operator
from typing import Any, Callable, Iterable, Union

import numpy as np

from . import _primitive
from ._arrays import FieldArray
from ._fields import Gf2, Ghash128, Poly64, Rijndael8b
from ._library import CHOSEN, WORDS, Words, call
from ._poly import Poly
from ._storage import _Constants

_MOST_BITS = 128
_WIDE = WORDS["u128"]
# Up to so many steps logarithms are those of the library, which takes about so many more for the powers of each element.
_MOST_STEPS, _STEPS_OF_POWERS = 1 << 18, 256
# A polynomial over GF(2) as a caller gives it: an integer, a text, its coefficients from the highest on, or one of `Poly`.
Polynomial = Union[int, str, Poly, Iterable[int]]
# The fixed fields that are polynomials modulo one.
_FIXED: dict[int, type[FieldArray]] = {0x11B: Rijndael8b, 1 << 64 | 0x1B: Poly64, 1 << 128 | 0x87: Ghash128}


class _Chosen(_Constants):
    """What every such field has, as attributes of its class."""

    _modulus: int

    @property
    def irreducible_poly(cls) -> Poly:
        """The modulus, a polynomial over GF(2)."""
        return Poly.Int(cls._modulus)

    @property
    def is_primitive_poly(cls) -> bool:
        """Whether x is a primitive element."""
        return bool(cls.irreducible_poly.is_primitive())


class ChosenField(FieldArray, metaclass=_Chosen):
    """An array over GF(2)[x] modulo an irreducible polynomial that `GF` was given."""

    __slots__ = ()
    _modulus: int
    _primitive: int
    _field: Words

    @classmethod
    def _group_primes(cls) -> tuple[int, ...]:
        return _primitive.primes_of_group(cls.degree)

    @classmethod
    def _images(cls, elements: Any) -> Any:
        """The images of elements of another field: of GF(2) alone."""
        if elements._name != "gf2":
            raise TypeError(f"cannot convert {type(elements).__name__} to {cls.__name__}: take {cls.__name__}.embedded")
        result = cls.zeros(elements.shape)
        result._parts()[0][...] = elements._words
        return result

    def _quotient(self, divisor: Any, out: Any = None) -> Any:
        if not divisor.ndim:
            return super()._quotient(divisor, out)
        divisor._refuse_zero()
        return self._elementwise("divide", divisor, out)

    def _logarithms(self) -> Words:
        """Those to the primitive element: by one call of the library where that takes few steps, as it goes along the powers in a group of
        each prime order."""
        group = type(self).order - 1
        steps = max((it for it in self._group_primes() if group % it == 0), default=1) + _STEPS_OF_POWERS
        if self.size * steps > _MOST_STEPS:
            return super()._logarithms()
        base, logarithms = type(self).primitive_element, np.empty(self.shape, _WIDE)
        call("field_logarithm", self._field, _wide(self._words), _wide(base._words), logarithms)
        return np.asarray(logarithms["words"][..., 0].astype(object))

    def _orders(self) -> Words:
        orders = np.empty(self.shape, _WIDE)
        call("field_order", self._field, _wide(self._words), orders)
        return _numbers(orders)

    def _over(self, subfield: Any) -> tuple[Any, int]:
        subfield = Gf2 if subfield is None else subfield
        if self.degree % subfield.degree:
            raise TypeError(f"cannot convert {subfield.__name__} to {type(self).__name__}, which does not contain it")
        return subfield, self.degree // subfield.degree

    def _restricted(self, subfield: Any) -> Any:
        from . import _embeddings

        return self if subfield._name == self._name else self._narrowed(Gf2) if subfield is Gf2 else _embeddings.restricted(subfield, self)

    def field_trace(self, subfield: Any = None) -> Any:
        """The trace of each element over a field whose degree divides that of this one, by default GF(2): the sum of its conjugates, as the
        element of that field whose image it is, as `embedded` has it.

        >>> bf.GF(2**3)([1, 2, 4]).field_trace()
        Gf2([0x1, 0x0, 0x0])
        >>> bf.GF(2**4)([2]).field_trace(bf.GF(2**2)), bf.GF(2**4)([2]).field_norm(bf.GF(2**2)) ** 3
        (GF_2_7([0x1]), GF_2_7([0x1]))
        """
        return self._over_subfield("trace_to", subfield)

    def field_norm(self, subfield: Any = None) -> Any:
        """The norm of each element over a field whose degree divides that of this one, by default GF(2): the product of its conjugates, as
        the element of that field whose image it is, as `embedded` has it.

        >>> bf.GF(2**3)([0, 2]).field_norm()
        Gf2([0x0, 0x1])
        """
        return self._over_subfield("norm_to", subfield)

    def _over_subfield(self, name: str, subfield: Any) -> Any:
        """What a function of the library gives of each element over a field whose degree divides that of this one, in that field."""
        subfield, _ = self._over(subfield)
        made, result = np.empty(self.shape, _WIDE), self.zeros(self.shape)
        call(f"field_{name}", self._field, _wide(self._words), subfield.degree, made)
        result._words[...] = _narrow(made, result._words.dtype)
        return result._restricted(subfield)

    def minimal_poly(self, subfield: Any = None) -> Poly:
        """The monic polynomial of least degree over a field whose degree divides that of this one, by default GF(2), with this single element
        as a root; and over this field with a square matrix as one.

        >>> bf.GF(2**3)(2).minimal_poly()
        Poly(x^3 + x + 1, Gf2)
        """
        if self.ndim or subfield is not None and subfield._name != "gf2":
            return super().minimal_poly(subfield)
        degree, tail = np.zeros((), WORDS["usize"]), np.zeros((), _WIDE)
        call("field_minimal_polynomial", self._field, _wide(self._words), degree, tail)
        return Poly.Int(1 << int(degree) | int(_numbers(tail)[()]))


def _wide(words: Any) -> Words:
    """A copy of the words of elements in words of 128 bits; those that have so many as they are."""
    given: Words = np.asarray(words)
    if given.dtype == _WIDE:
        return given
    result = np.zeros(given.shape, _WIDE)
    result["words"][..., 0] = given
    return result


def _narrow(words: Words, dtype: np.dtype[Any]) -> Words:
    """What words of 128 bits have in as many as a word of such a type."""
    return words if dtype == _WIDE else words["words"][..., 0]


def _numbers(words: Words) -> Words:
    """Words of 128 bits as Python's integers."""
    halves = words["words"].astype(object)
    return np.asarray(halves[..., 0] | halves[..., 1] << 64, dtype=object)


class _Functions:
    """What the library's functions of a fixed field are for a chosen one, by its words."""

    def __init__(self, words: Words, primitive: Callable[[], int]) -> None:
        self.words, self.primitive = words, primitive

    def _written(self, name: str, result: Words, *operands: Any) -> None:
        """Calls a function and leaves what it writes in an array."""
        made = np.empty(np.shape(result), _WIDE)
        call(f"field_{name}", self.words, *operands, made)
        result[...] = _narrow(made, result.dtype)

    def add(self, left: Words, right: Words, sums: Words) -> None:
        made = left["words"] ^ right["words"] if sums.dtype == _WIDE else left ^ right
        if sums.dtype == _WIDE:
            sums["words"][...] = made
        else:
            sums[...] = made

    def multiply(self, left: Words, right: Words, products: Words) -> None:
        self._written("multiply", products, _wide(left), _wide(right))

    def divide(self, left: Words, right: Words, quotients: Words) -> None:
        self._written("divide", quotients, _wide(left), _wide(right))

    def multiply_by(self, values: Words, scalar: Any, products: Words) -> None:
        self._written("multiply_by", products, _wide(values), _wide(scalar))

    def add_scaled(self, sums: Words, scalar: Any, values: Words) -> None:
        products = np.empty_like(sums)
        self.multiply_by(values, scalar, products)
        self.add(sums, products, sums)

    def square(self, values: Words, squares: Words) -> None:
        self._written("square", squares, _wide(values))

    def inverse(self, values: Words, inverses: Words) -> None:
        self._written("inverse", inverses, _wide(values))

    def square_root(self, values: Words, roots: Words) -> None:
        self._written("square_root", roots, _wide(values))

    def power(self, values: Words, exponent: int, powers: Words) -> None:
        self._written("power", powers, _wide(values), exponent)

    def trace(self, values: Words, traces: Words) -> None:
        self._written("trace", traces, _wide(values))

    def generator(self, result: Words) -> None:
        result[...] = _words_of(self.primitive(), result.dtype)

    def product(self, values: Words, product: Words) -> None:
        factors = values.copy()
        while len(factors) > 1:
            half = len(factors) // 2
            made = np.empty(half, factors.dtype)
            self.multiply(factors[:half], factors[half : 2 * half], made)
            factors = np.concatenate([made, factors[2 * half :]])
        product[...] = factors[0] if len(factors) else _words_of(1, product.dtype)

    def dot_product(self, left: Words, right: Words, result: Words) -> None:
        self._written("dot_product", result, _wide(left), _wide(right))

    def evaluate(self, coefficients: Words, points: Words, values: Words) -> None:
        self._written("evaluate", values, _wide(coefficients), _wide(points))


def _words_of(number: int, dtype: np.dtype[Any]) -> Words:
    """The word of an element."""
    return np.frombuffer(number.to_bytes(dtype.itemsize, "little"), dtype).reshape(())


class _MatrixFunctions:
    """What the library's functions of matrices over a fixed field are for a chosen one, by its words."""

    def __init__(self, words: Words) -> None:
        self.words = words

    def matrix_multiply(self, left: Words, right: Words, product: Words, *shape: int) -> None:
        made = np.empty(product.shape, _WIDE)
        call("field_matrix_multiply", self.words, _wide(left), _wide(right), made, *shape)
        product[...] = _narrow(made, product.dtype)

    def matrix_row_reduce(self, matrix: Words, rows: int, columns: int, pivots: Words, rank: Words) -> None:
        made = _wide(matrix)
        call("field_matrix_row_reduce", self.words, made, rows, columns, pivots, rank)
        matrix[...] = _narrow(made, matrix.dtype)

    def matrix_inverse(self, matrix: Words, size: int, inverse: Words, space: Words, places: Words) -> None:
        made = np.empty(inverse.shape, _WIDE)
        call("field_matrix_inverse", self.words, _wide(matrix), size, made, np.empty(space.shape, _WIDE), places)
        inverse[...] = _narrow(made, inverse.dtype)

    def matrix_determinant(self, matrix: Words, size: int, space: Words, determinant: Words) -> None:
        made = np.empty(determinant.shape, _WIDE)
        call("field_matrix_determinant", self.words, _wide(matrix), size, np.empty(space.shape, _WIDE), made)
        determinant[...] = _narrow(made, determinant.dtype)


def _lent(functions: Any) -> dict[str, Callable[..., None]]:
    """The methods of such an object by their names."""
    return {it: getattr(functions, it) for it in dir(functions) if not it.startswith("_") and callable(getattr(functions, it))}


def _in_place(function: Callable[..., None], words: Words, *operands: Any) -> None:
    """Leaves in an array what a function writes elsewhere."""
    function(words, *operands, words)


def _integer(poly: Polynomial) -> int:
    """The integer of a polynomial over GF(2), whose bit i is the coefficient of x**i."""
    if isinstance(poly, Poly):
        if poly.field.degree != 1:
            raise TypeError("the modulus must be a polynomial over GF(2)")
        return int(poly)
    if isinstance(poly, str):
        return int(Poly.Str(poly))
    if isinstance(poly, Iterable):
        return functools.reduce(lambda sum, it: sum << 1 | operator.index(it) & 1, poly, 0)
    return operator.index(poly)


def _degree_of(order: int, degree: int | None) -> int:
    """The degree of a field by its order, or by 2 and the degree."""
    order = operator.index(order)
    if degree is not None:
        order = order ** operator.index(degree) if order == 2 and degree > 0 else 0
    if order < 2 or order & order - 1 or order.bit_length() - 1 > _MOST_BITS:
        raise ValueError(f"GF(order) takes a power of two up to 2**{_MOST_BITS}, and GF(2, degree) a degree up to {_MOST_BITS}")
    return order.bit_length() - 1


def GF(
    order: int, degree: int | None = None, *, irreducible_poly: Polynomial | None = None, primitive_element: Polynomial | None = None,
    repr: str | None = None,
) -> type[FieldArray]:
    """The field of so many elements, as a class of arrays, by the order 2**m or by 2 and m, m from 1 to 128.

    `irreducible_poly` is the modulus, an integer, a text, a list of coefficients from the highest on or a `Poly`: by default the Conway
    polynomial, which is known up to m = 64. The library tells exactly whether it is irreducible. `primitive_element` is by default the
    least one; a given one is tested. The same arguments give the same class, and where a fixed class has the same elements and no primitive
    element is named, that class: `Rijndael8b`, `Poly64`, `Ghash128` and `Gf2`.

    >>> F = bf.GF(2**8, irreducible_poly="x^8 + x^4 + x^3 + x^2 + 1")
    >>> F([2, 0x80]) * F(2)
    GF_8_11d([0x4, 0x1d])
    >>> F is bf.GF(2, 8, irreducible_poly=0x11D), bf.GF(2**8, irreducible_poly=0x11B) is bf.Rijndael8b
    (True, True)
    """
    bits = _degree_of(order, degree)
    if bits == 1:
        field: Any = Gf2
    else:
        if irreducible_poly is None and bits > len(_primitive._CONWAY):
            raise ValueError(f"no Conway polynomial of the degree {bits} is known here: give irreducible_poly, as bf.irreducible_poly({bits}) is one")
        modulus = _primitive.conway(2, bits) if irreducible_poly is None else _integer(irreducible_poly)
        if modulus.bit_length() - 1 != bits:
            raise ValueError(f"the modulus of a field of 2**{bits} elements has the degree {bits}, and this one {modulus.bit_length() - 1}")
        chosen = None if primitive_element is None else _integer(primitive_element)
        field = _FIXED[modulus] if chosen is None and modulus in _FIXED else _made(bits, modulus, chosen)
    if repr is not None:
        field.repr({"poly": "poly", "power": "power", "int": "int"}.get(repr, repr))
    return field  # type: ignore[no-any-return]


@functools.cache
def _made(degree: int, modulus: int, primitive: int | None) -> type[ChosenField]:
    """The class of a field, made once."""
    words = np.zeros((), WORDS["field"])
    tail = _words_of(modulus ^ 1 << degree, _WIDE)
    try:
        call("field_init", words, degree, tail)
    except ValueError:
        raise ValueError(f"{Poly.Int(modulus)} is not irreducible: no field has this modulus") from None
    name = f"GF_{degree}_{modulus:x}" + ("" if primitive is None else f"_{primitive:x}")
    word = f"u{max(8, 1 << math.ceil(math.log2(degree)))}"
    functions = _Functions(words, lambda: _least_primitive(field) if primitive is None else primitive)
    body = {
        "__slots__": (), "__module__": __name__, "degree": degree, "_name": name, "_word": word, "_modulus": modulus, "_primitive": primitive,
        "_field": words,
        "__doc__": f"Arrays over GF(2)[x] modulo {Poly.Int(modulus)}.",
    }
    field: Any = _Chosen(name, (ChosenField,), body)
    for own, function in (_lent(functions) | _lent(_MatrixFunctions(words))).items():
        CHOSEN[f"{name}_{own}"] = function
        CHOSEN[f"{name}_{own}_in_place"] = functools.partial(_in_place, function)
    if primitive is not None and not (0 < primitive < 1 << degree and field.is_primitive_element(primitive)):
        raise ValueError(f"{primitive:#x} is no primitive element of the field modulo {Poly.Int(modulus)}")
    if primitive is not None and primitive == _least_primitive(field):
        return _made(degree, modulus, None)
    return field  # type: ignore[no-any-return]


@functools.cache
def _least_primitive(field: Any) -> int:
    """The primitive element with the least representation."""
    found = np.zeros((), _WIDE)
    call("field_primitive_element", field._field, found)
    return int.from_bytes(found.tobytes(), "little")


def _again(degree: int, modulus: int, primitive: int | None) -> type[ChosenField]:
    """The class that a pickle names."""
    return _made(degree, modulus, primitive)


def _reduced(field: Any) -> Any:
    """What a pickle has of such a class."""
    return (_again, (field.degree, field._modulus, field._primitive)) if "_modulus" in vars(field) else field.__name__


copyreg.pickle(_Chosen, _reduced)
