"""Facts of single elements: orders, logarithms, traces, norms and minimal polynomials, by the arithmetic that FieldArray adds.

The conjugates of x over a subfield of q elements are x, x**q, x**(q**2) and so on. Logarithms go by the method of Pohlig and Hellman
(IEEE Transactions on Information Theory 24, 1978), and in groups of prime order by Shanks' baby steps and giant steps.
"""

from __future__ import annotations

import functools
import math
from typing import TYPE_CHECKING, Any

import numpy as np

from . import _tables
from ._draws import Drawn
from ._library import Words, packed
from ._storage import _FIELDS, S

if TYPE_CHECKING:
    from ._poly import Poly

# The primes that divide 2**n - 1 for the degrees n of the fields. The first 9 are those of 2**128 - 1, the factors of Fermat's numbers.
_PRIMES = (
    3, 5, 17, 257, 641, 65537, 274177, 6700417, 67280421310721,
    7, 13, 97, 193, 241, 673, 22253377, 18446744069414584321,
)
# Above this degree 2**n - 1 has a prime for which baby steps are too many.
_LOGARITHM_BITS = 64
# And so has it where a prime is larger.
_LARGEST_PRIME = 1 << 44


class Facts(Drawn):
    """What is known of elements beside arithmetic."""

    __slots__ = ()

    @classmethod
    def is_primitive_element(cls, element: Any) -> bool:
        """Whether each element but 0 is a power of this one.

        >>> bf.Rijndael8b.is_primitive_element(2), bf.Rijndael8b.is_primitive_element(3)
        (False, True)
        """
        element = cls._single(element)
        return bool(element) and element.multiplicative_order() == cls.order - 1

    @classmethod
    def _group_primes(cls) -> tuple[int, ...]:
        """Primes, of which those that divide the number of the elements but 0 are all."""
        return _PRIMES

    @classmethod
    def _single(cls: type[S], element: Any) -> Any:
        """An element, which is an array of no dimensions."""
        element = cls._operand(element)
        if element.ndim:
            raise ValueError("a single element is wanted")
        return element

    @classmethod
    def _integers(cls, numbers: Words) -> Any:
        """Numbers as numpy has them of this field: of 64 bits where they fit, else Python's; of one element, one of Python."""
        if not numbers.ndim:
            return int(numbers[()])
        return numbers.astype(np.int64) if cls.degree < 64 else numbers

    def multiplicative_order(self) -> Any:
        """The least exponent above 0 for which the power of each element is 1; ArithmeticError where one is 0.

        >>> bf.Rijndael8b([1, 2, 3]).multiplicative_order()
        array([  1,  51, 255])
        """
        elements: Any = self
        if not elements.all():
            raise ArithmeticError(f"0 of {type(self).__name__} has no multiplicative order")
        return self._integers(self._orders())

    def _orders(self) -> Words:
        """The orders of elements, of which none is 0."""
        elements: Any = self
        group, orders = type(self).order - 1, np.full(self.shape, 1, dtype=object)
        for prime in self._group_primes():
            rest = group
            while rest % prime == 0:
                rest //= prime
            power = elements**rest
            while rest < group:
                orders = np.where(power == 1, orders, orders * prime)
                power, rest = power**prime, rest * prime
        return np.asarray(orders, dtype=object)

    def additive_order(self) -> Any:
        """The least number above 0 of times that each element adds up to 0: 1 of 0, and else 2.

        >>> bf.Rijndael8b([0, 3]).additive_order()
        array([1, 2])
        """
        elements: Any = self
        return self._integers(np.asarray(np.where(elements == 0, 1, 2), dtype=object))

    # ---- vectors over GF(2), and texts

    def vector(self, order: str = "desc") -> Any:
        """The bits of each representation, along a last axis, as elements of `Gf2`: the highest first, or with `order="asc"` the lowest.

        >>> bf.BinaryField4([1, 12]).vector()
        Gf2([[0x0, 0x0, 0x0, 0x1], [0x1, 0x1, 0x0, 0x0]])
        """
        words = packed(self._words)
        data = np.frombuffer(words.tobytes(), np.uint8).reshape(*words.shape, words.dtype.itemsize)
        bits = np.unpackbits(data, axis=-1, count=self.degree, bitorder="little")
        return _FIELDS["gf2"]._of(np.ascontiguousarray(bits[..., :: _step(order)]))

    @classmethod
    def Vector(cls: type[S], array: Any, order: str = "desc") -> S:
        """The elements with these bits along the last axis, as `vector` has them.

        >>> bf.BinaryField4.Vector([[1, 1, 0, 0]])
        BinaryField4([0xc])
        """
        bits = _FIELDS["gf2"]._operand(array)._words[..., :: _step(order)]
        if bits.shape[-1:] != (cls.degree,):
            raise ValueError(f"the vectors of elements of {cls.__name__} have {cls.degree} bits along the last axis, and the shape is {bits.shape}")
        result = cls.zeros(bits.shape[:-1])
        data = np.zeros((*result.shape, result.itemsize), np.uint8)
        made = np.packbits(bits, axis=-1, bitorder="little")
        data[..., : made.shape[-1]] = made
        result._words[...] = np.frombuffer(data.tobytes(), cls._dtype()).reshape(result.shape)
        return result

    @classmethod
    def repr_table(cls, element: Any = None, sort: str = "power") -> str:
        """A table of all elements of a field of up to 8 bits: each as a power of a primitive element, by default `primitive_element`, as a
        polynomial where elements are such, as a vector and as a representation, sorted by "power" or "int".

        >>> print(bf.BinaryField2.repr_table())
          Power  Vector  Integer
        -------  ------  -------
              0  [0, 0]      0x0
        (0x2)^0  [0, 1]      0x1
        (0x2)^1  [1, 0]      0x2
        (0x2)^2  [1, 1]      0x3
        """
        return _tables.of_elements(cls, element, sort)

    @classmethod
    def arithmetic_table(cls, operation: str, x: Any = None, y: Any = None) -> str:
        """A table of what `+`, `-`, `*` or `/` makes of each element of x with each of y, by default all of a field of up to 8 bits.

        >>> print(bf.BinaryField2.arithmetic_table("*"))
        x * y |  0x0  0x1  0x2  0x3
        -------  ---  ---  ---  ---
          0x0 |  0x0  0x0  0x0  0x0
          0x1 |  0x0  0x1  0x2  0x3
          0x2 |  0x0  0x2  0x3  0x1
          0x3 |  0x0  0x3  0x1  0x2
        """
        return _tables.of_operation(cls, operation, x, y)

    # ---- logarithms

    def log(self, base: Any = None) -> Any:
        """The exponent, from 0 to order - 2, for which the power of the base is each element, in fields of up to 64 bits. The base is a
        primitive element, by default `primitive_element`; ArithmeticError where an element is 0.

        >>> bf.Rijndael8b([1, 2, 3]).log(3)
        array([ 0, 25,  1])
        """
        elements: Any = self
        field: Any = type(self)
        group = field.order - 1
        if field.degree > _LOGARITHM_BITS:
            raise ValueError(f"there are logarithms in fields of up to {_LOGARITHM_BITS} bits, and {field.__name__} has {field.degree}")
        if not elements.all():
            raise ArithmeticError(f"0 of {field.__name__} has no logarithm")
        if base is not None and not field.is_primitive_element(base):
            raise ValueError("the base of logarithms must be a primitive element")
        logarithms = self._logarithms()
        if base is not None and group > 1:
            logarithms = logarithms * pow(int(field._operand(base).log()), -1, group) % group
        return self._integers(np.asarray(logarithms, dtype=object))

    def _logarithms(self) -> Words:
        """Those to the primitive element: the Chinese remainder of those in the groups whose orders are powers of a prime, each of which is
        found digit by digit."""
        elements: Any = self
        generator: Any = type(self).primitive_element
        group = type(self).order - 1
        result = np.full(self.shape, 0, dtype=object)
        for prime in self._group_primes():
            if group % prime:
                continue
            if prime > _LARGEST_PRIME:
                raise ValueError(f"there are no logarithms where a prime of 2**{self.degree} - 1 is above 2**44, as {prime} is")
            found, power, base = np.full(self.shape, 0, dtype=object), 1, generator ** (group // prime)
            while group % (power * prime) == 0:
                rest = group // (power * prime)
                left = elements**rest if power == 1 else (elements / generator**found) ** rest
                found, power = found + power * _in_prime_group(left, base, prime).astype(object), power * prime
            rest = group // power
            result = (result + found * (rest * pow(rest, -1, power))) % group
        return np.asarray(result, dtype=object)

    # ---- subfields

    def _over(self, subfield: Any) -> tuple[Any, int]:
        """A subfield, by default GF(2), and how often its order's logarithm goes into the degree."""
        subfield = _FIELDS["gf2"] if subfield is None else subfield
        type(self)(subfield.zeros(()))
        return subfield, self.degree // subfield.degree

    def _conjugates(self, subfield: Any) -> list[Any]:
        """The elements, and the powers of each by those of the subfield's order, to the degree over it."""
        found: list[Any] = [self]
        for _ in range(self._over(subfield)[1] - 1):
            found.append(found[-1] ** subfield.order)
        return found

    def _restricted(self, subfield: Any) -> Any:
        """The elements of a subfield whose images in this field these are: `to` the other way."""
        if subfield._name == self._name:
            return self
        if not self._is_in_tower():
            below: Any = self._narrowed(_FIELDS["p64"]) if self.degree == 192 else self.to(_FIELDS[self._partner or ""])
            return below._restricted(subfield)
        level = subfield if subfield._is_in_tower() else _FIELDS[subfield._partner]
        return self._narrowed(level).to(subfield)

    def _narrowed(self, field: type[S]) -> Any:
        """The low bits of the representations in a smaller field, which of its own elements are all."""
        result = field.zeros(self.shape)
        for part, it in zip(result._parts(), self._parts()):
            part[...] = it
        if field.degree < 8:
            result._words &= np.uint8(field.order - 1)
        return result

    def to_subfield(self, subfield: Any) -> Any:
        """The elements of a field that this one contains whose images these are, as `to` goes the other way; ValueError where an element is
        none of its images.

        >>> bf.BinaryField16([7, 0x35]).to_subfield(bf.Rijndael8b).to(bf.BinaryField16)
        BinaryField16([0x7, 0x35])
        """
        subfield, _ = self._over(subfield)
        result = self._restricted(subfield)
        if not (type(self).embedded(result) == self).all():
            raise ValueError(f"an element of {type(self).__name__} is not in {subfield.__name__}")
        return result

    @classmethod
    def embedded(cls, elements: Any) -> Any:
        """The images in this field of elements of another one, of up to 128 bits, whose degree divides that of this. Where one of both is a
        class of `GF`, it is by the embedding that takes x to the root of a modulus that the library finds, the same in each call; between the
        fixed fields it is `to`. ValueError where no embedding is.

        >>> bf.GF(2**4).embedded(bf.GF(2**2)([1, 2])) ** 3
        GF_4_13([0x1, 0x1])
        >>> bf.BinaryField16.embedded(bf.GF(2**8)([2, 3])) ** 255
        BinaryField16([0x1, 0x1])
        """
        from . import _embeddings

        return _embeddings.embedded(cls, elements)

    def field_trace(self, subfield: Any = None) -> Any:
        """The trace of each element over a field that this one contains, by default GF(2): the sum of its conjugates, in that field.

        >>> bf.Rijndael8b([1, 0x20]).field_trace()
        Gf2([0x0, 0x1])
        >>> bf.BinaryField16([0x100]).field_trace(bf.Rijndael8b)
        Rijndael8b([0x35])
        """
        subfield, _ = self._over(subfield)
        return functools.reduce(lambda x, y: x + y, self._conjugates(subfield))._restricted(subfield)

    def field_norm(self, subfield: Any = None) -> Any:
        """The norm of each element over a field that this one contains, by default GF(2): the product of its conjugates, in that field.

        >>> bf.BinaryField16([0x100, 2]).field_norm(bf.BinaryField8)
        BinaryField8([0x1, 0x3])
        """
        elements: Any = self
        subfield, _ = self._over(subfield)
        return (elements ** ((type(self).order - 1) // (subfield.order - 1)))._restricted(subfield)

    def minimal_poly(self, subfield: Any = None) -> Poly:
        """The monic polynomial of least degree over a field that this one contains, by default GF(2), with this single element as a root;
        and over this field with a square matrix as one.

        >>> bf.Rijndael8b(2).minimal_poly()
        Poly(x^8 + x^4 + x^3 + x + 1, Gf2)
        >>> bf.Rijndael8b([[2, 0], [0, 2]]).minimal_poly()
        Poly(x + 0x2, Rijndael8b)
        """
        from . import _factors
        from ._poly import Poly

        if self.ndim == 2 and subfield is None:
            return _factors.minimal(self._square())
        element = self._single(self)
        subfield, _ = self._over(subfield)
        conjugates = element._conjugates(subfield)
        count = next((at for at, it in enumerate(conjugates) if at and it == element), len(conjugates))
        over_this = Poly.Roots(type(self)(conjugates[:count]))
        return Poly(over_this.coeffs._restricted(subfield))

    def characteristic_poly(self) -> Poly:
        """Of a square matrix the determinant of x minus it; of a single element that of its products, over GF(2).

        >>> bf.Rijndael8b([[1, 2], [3, 4]]).characteristic_poly()
        Poly(x^2 + 0x5*x + 0x2, Rijndael8b)
        >>> bf.Rijndael8b(1).characteristic_poly() == bf.Poly.Int(3) ** 8
        True
        """
        from . import _factors

        if self.ndim == 2:
            return _factors.characteristic(self._square())
        minimal = self.minimal_poly()
        return minimal ** (type(self).degree // minimal.degree)

    def _square(self) -> Any:
        if self.shape[0] != self.shape[1]:
            raise ValueError(f"a square matrix is wanted, and the shape is {self.shape}")
        return self


def _step(order: str) -> int:
    """The step through bits from the lowest on that has them in an order."""
    if order not in ("desc", "asc"):
        raise ValueError('the order of bits is "desc" or "asc"')
    return -1 if order == "desc" else 1


def _in_prime_group(values: Any, generator: Any, prime: int) -> Words:
    """The logarithm of each value in the group of a prime order: its giant steps meet the baby steps, of which a table is made."""
    reach = math.isqrt(prime - 1) + 1
    powers = type(values)(np.full(reach, int(generator), dtype=object))
    powers[0] = 1
    baby = powers.cumprod()
    order = np.argsort(baby._words)
    table = baby._words[order]
    result, back, now = np.full(values.shape, -1, dtype=np.int64), generator**-reach, values.copy()
    for giant in range(reach):
        places = np.minimum(np.searchsorted(table, now._words), reach - 1)
        result = np.where((table[places] == now._words) & (result < 0), giant * reach + order[places], result)
        now *= back
    return np.asarray(result)
