"""Polynomials over a field, with the names of `galois`: a class of them all, and functions of two or more."""

from __future__ import annotations

import re
from typing import Any, Iterable, Union

import numpy as np

from . import _factors, _primitive
from ._arrays import FieldArray
from ._fields import Gf2

# What an operator takes beside polynomials: an element of the field, or the integers 0 and 1.
_Scalar = Union[FieldArray, int]
# A term of a text: a coefficient of one decimal digit or hexadecimal behind 0x, and a power of x.
_TERM = re.compile(r"(0x[0-9a-fA-F]+|[0-9])?\s*(?:(\*?)\s*(x)(?:\^([0-9]+))?)?")


class Poly:
    """A polynomial over a field, which does not change.

    `Poly(coefficients)` takes those of an array of elements, of which the first belongs to the highest power, as in `galois`; with
    `order="asc"` it belongs to 1. `Poly(integers, field)` takes representations, over `Gf2` where no field is named. The polynomial 0
    has the coefficient 0 alone, and the degree 0.

    `+`, `-`, `*`, `//`, `%`, `divmod` and `**` are those of polynomials. The other operand is one over the same field, an element of
    it, or the integer 0 or 1; fields that differ are a TypeError, and a division by 0 a ZeroDivisionError. `p(x)` has the value at
    each element of an array, and of a polynomial is the composition.

    >>> F = bf.Rijndael8b
    >>> p = bf.Poly(F([1, 0, 0x53]))
    >>> p * F(2) + 1
    Poly(0x2*x^2 + 0xa7, Rijndael8b)
    >>> p(F([0, 1, 2]))
    Rijndael8b([0x53, 0x52, 0x57])
    >>> divmod(p, bf.Poly.Roots(F([3])))
    (Poly(x + 0x3, Rijndael8b), Poly(0x56, Rijndael8b))
    """

    # numpy's arrays leave operators to this class, and so do arrays of elements.
    __array_ufunc__ = None

    _low: Any

    def __init__(self, coefficients: Any, field: type[FieldArray] | None = None, order: str = "desc") -> None:
        if order not in ("desc", "asc"):
            raise ValueError('the order of coefficients is "desc" or "asc"')
        kind: Any = field or (type(coefficients) if isinstance(coefficients, FieldArray) else Gf2)
        given = kind._operand(coefficients)
        if given.ndim != 1 or not given.size:
            raise ValueError("coefficients must have one dimension, and there must be one at least")
        self._low = _trimmed(given[::-1] if order == "desc" else given).copy()

    # ---- making

    @classmethod
    def _of(cls, low: Any) -> Poly:
        """The polynomial that holds these coefficients, the lowest first, which nothing else holds."""
        result = object.__new__(cls)
        result._low = _trimmed(low)
        return result

    @classmethod
    def Zero(cls, field: type[FieldArray] = Gf2) -> Poly:
        """0.

        >>> bf.Poly.Zero(bf.Rijndael8b)
        Poly(0, Rijndael8b)
        """
        return cls._of(field.zeros(1))

    @classmethod
    def One(cls, field: type[FieldArray] = Gf2) -> Poly:
        """1.

        >>> bf.Poly.One(bf.Rijndael8b)
        Poly(1, Rijndael8b)
        """
        return cls._of(field.ones(1))

    @classmethod
    def Identity(cls, field: type[FieldArray] = Gf2) -> Poly:
        """x.

        >>> bf.Poly.Identity(bf.Rijndael8b)
        Poly(x, Rijndael8b)
        """
        return cls.Degrees([1], field=field)

    @classmethod
    def Degrees(cls, degrees: Iterable[int], coeffs: Any = None, field: type[FieldArray] | None = None) -> Poly:
        """The polynomial that has a coefficient at each of some degrees, by default 1, and 0 elsewhere.

        >>> bf.Poly.Degrees([8, 4, 0], bf.Rijndael8b([1, 2, 3]))
        Poly(x^8 + 0x2*x^4 + 0x3, Rijndael8b)
        """
        kind: Any = field or (type(coeffs) if isinstance(coeffs, FieldArray) else Gf2)
        places = [int(it) for it in degrees]
        given = kind.ones(len(places)) if coeffs is None else kind._operand(coeffs)
        if min(places, default=0) < 0 or len(set(places)) < len(places) or given.shape != (len(places),):
            raise ValueError("degrees must be different integers from 0 on, with a coefficient for each")
        low = kind.zeros(max(places, default=0) + 1)
        low[places] = given
        return cls._of(low)

    @classmethod
    def Str(cls, string: str, field: type[FieldArray] = Gf2) -> Poly:
        """The polynomial of a text as `str` gives it. A coefficient above 9 is hexadecimal behind 0x; of equal powers the sum is taken.

        >>> bf.Poly.Str("x^8 + 0x53*x + 3", bf.Rijndael8b).coeffs
        Rijndael8b([0x1, 0x0, 0x0, 0x0, 0x0, 0x0, 0x0, 0x53, 0x3])
        """
        result = cls.Zero(field)
        for term in re.split(r"[+-]", string):
            found = _TERM.fullmatch(term.strip())
            if not found or not found[0] or found[2] and not found[1]:
                raise ValueError(f"{term.strip()!r} is no term of a polynomial as 0x53*x^2")
            power = int(found[4] or 1) if found[3] else 0
            result += cls.Degrees([power], field([int(found[1] or "1", 0)]))
        return result

    @classmethod
    def Int(cls, integer: int, field: type[FieldArray] = Gf2) -> Poly:
        """The polynomial whose coefficients are the digits of an integer, in the base of the field's order.

        >>> bf.Poly.Int(0x11B)
        Poly(x^8 + x^4 + x^3 + x + 1, Gf2)
        """
        if integer < 0:
            raise ValueError("an integer from 0 on is wanted")
        count = max(1, -(-integer.bit_length() // field.degree))
        return cls._of(field([integer >> field.degree * at & field.order - 1 for at in range(count)]))

    @classmethod
    def Random(cls, degree: int, seed: int | np.random.Generator | None = None, field: type[FieldArray] = Gf2) -> Poly:
        """A polynomial of this degree, drawn by numpy's generator, which is none for secrets.

        >>> bf.Poly.Random(5, seed=1, field=bf.Rijndael8b).degree
        5
        """
        if degree < 0:
            raise ValueError("a degree from 0 on is wanted")
        draw = np.random.default_rng(seed)
        low = field.random(degree + 1, draw)
        while degree and not low[-1]:
            low[-1] = field.random((), draw)
        return cls._of(low)

    @classmethod
    def Roots(cls, roots: Any, multiplicities: Iterable[int] | None = None, field: type[FieldArray] | None = None) -> Poly:
        """The monic polynomial with these roots, each as often as it is there, or as its multiplicity says.

        >>> bf.Poly.Roots(bf.Rijndael8b([1, 2]), [2, 1])
        Poly(x^3 + 0x2*x^2 + x + 0x2, Rijndael8b)
        """
        kind: Any = field or (type(roots) if isinstance(roots, FieldArray) else Gf2)
        given = kind._operand(roots)
        times = [1] * given.size if multiplicities is None else [int(it) for it in multiplicities]
        if given.ndim != 1 or len(times) != given.size or min(times, default=0) < 0:
            raise ValueError("roots must have one dimension, with a multiplicity from 0 on for each")
        factors = [cls._of(kind([int(it), 1])) for it in np.repeat(given, times)]
        while len(factors) > 1:
            factors = [it if more is None else it * more for it, more in zip(factors[::2], [*factors[1::2], None])]
        return factors[0] if factors else cls.One(kind)

    # ---- what it holds

    @property
    def field(self) -> type[FieldArray]:
        """The field of the coefficients."""
        return type(self._low)

    @property
    def degree(self) -> int:
        """The highest power whose coefficient is not 0; 0 of the polynomial 0."""
        return int(self._low.size - 1)

    @property
    def coeffs(self) -> Any:
        """The coefficients, that of the highest power first: a copy."""
        return self._low[::-1].copy()

    @property
    def degrees(self) -> Any:
        """The degree of each coefficient in `coeffs`."""
        return np.arange(self.degree, -1, -1)

    @property
    def nonzero_degrees(self) -> Any:
        """The degrees whose coefficients are not 0, the highest first."""
        return np.flatnonzero(self._low)[::-1]

    @property
    def nonzero_coeffs(self) -> Any:
        """The coefficients that are not 0, that of the highest power first."""
        return self._low[self.nonzero_degrees]

    @property
    def is_monic(self) -> bool:
        """Whether the coefficient of the highest power is 1."""
        return bool(self._low[-1] == 1)

    def coefficients(self, size: int | None = None, order: str = "desc") -> Any:
        """The coefficients with zeros at higher powers, as many as `size` says, in the order that `Poly` takes.

        >>> bf.Poly.Int(0b101).coefficients(4, order="asc")
        Gf2([0x1, 0x0, 0x1, 0x0])
        """
        size = self._low.size if size is None else size
        if size < self._low.size or order not in ("desc", "asc"):
            raise ValueError(f'the size must be {self._low.size} at least, and the order "desc" or "asc"')
        low = _lengthened(self._low, size)
        return low[::-1].copy() if order == "desc" else low

    def __len__(self) -> int:
        return int(self._low.size)

    def __bool__(self) -> bool:
        return bool(self._low.any())

    def __int__(self) -> int:
        """The integer that `Int` takes."""
        return sum(value << self.field.degree * at for at, value in enumerate(self._low.tolist()))

    def __str__(self) -> str:
        terms = []
        for power, value in zip(self.nonzero_degrees, self.nonzero_coeffs.tolist()):
            x = "" if not power else "x" if power == 1 else f"x^{power}"
            number = "" if value == 1 and x else "1" if value == 1 else f"{value:#x}"
            terms.append(f"{number}*{x}" if number and x else number or x)
        return " + ".join(terms) or "0"

    def __repr__(self) -> str:
        return f"Poly({self}, {self.field.__name__})"

    def __eq__(self, other: Any) -> bool:
        """Whether the other one is a polynomial over the same field with the same coefficients, or a constant: an element, or 0 or 1."""
        if isinstance(other, Poly):
            return self.field is other.field and np.array_equal(self._low, other._low)
        is_element = isinstance(other, self.field) and not other.ndim
        if not is_element and not isinstance(other, (int, np.integer)):
            return NotImplemented
        return not self.degree and bool(self._low[0] == other)

    def __hash__(self) -> int:
        # A constant is equal to an integer.
        return hash((self.field, int(self))) if self.degree else hash(int(self))

    # ---- arithmetic

    def _other(self, value: Any) -> Poly:
        """The other operand of an operator."""
        if isinstance(value, Poly):
            self.field._operand(value._low)
            return value
        element = self.field._other(value)
        if element.ndim:
            raise TypeError("beside a polynomial an operand is a polynomial, or a single element")
        return self._of(element.reshape(1).copy())

    def __add__(self, other: Poly | _Scalar) -> Poly:
        short, long = sorted((self._low, self._other(other)._low), key=len)
        result = long.copy()
        result[: short.size] += short
        return self._of(result)

    __radd__ = __sub__ = __rsub__ = __add__

    def __neg__(self) -> Poly:
        return self

    __pos__ = __neg__

    def __mul__(self, other: Poly | _Scalar) -> Poly:
        return self._of(np.convolve(self._low, self._other(other)._low))

    __rmul__ = __mul__

    def __divmod__(self, other: Poly | _Scalar) -> tuple[Poly, Poly]:
        """The quotient, and the remainder, whose degree is below that of the divisor, or which is 0."""
        divisor = self._other(other)._low
        inverse = divisor[-1].reciprocal()
        rest, count = self._low.copy(), self._low.size - divisor.size + 1
        if count < 1:
            return self.Zero(self.field), self
        quotient = self.field.zeros(count)
        for at in range(count - 1, -1, -1):
            quotient[at] = rest[at + divisor.size - 1] * inverse
            rest[at : at + divisor.size].add_scaled(quotient[at], divisor)
        return self._of(quotient), self._of(rest)

    def __rdivmod__(self, other: _Scalar) -> tuple[Poly, Poly]:
        return divmod(self._other(other), self)

    def __floordiv__(self, other: Poly | _Scalar) -> Poly:
        return divmod(self, other)[0]

    def __rfloordiv__(self, other: _Scalar) -> Poly:
        return divmod(self._other(other), self)[0]

    def __mod__(self, other: Poly | _Scalar) -> Poly:
        return divmod(self, other)[1]

    def __rmod__(self, other: _Scalar) -> Poly:
        return divmod(self._other(other), self)[1]

    def __pow__(self, exponent: int, modulus: Poly | None = None) -> Poly:
        """The power by an integer from 0 on; `pow(p, exponent, modulus)` has the remainder.

        >>> pow(bf.Poly.Int(2), 1 << 8, bf.Poly.Int(0x11B))
        Poly(x, Gf2)
        """
        if not isinstance(exponent, (int, np.integer)):
            raise TypeError("the exponent must be a single integer")
        if exponent < 0:
            raise ValueError("polynomials have no negative powers")
        result = self.One(self.field) if modulus is None else self.One(self.field) % modulus
        for bit in f"{exponent:b}":
            result = result._squared(modulus)
            if bit == "1":
                result = result * self if modulus is None else result * self % modulus
        return result

    def _squared(self, modulus: Poly | None = None) -> Poly:
        """The square, which has the squares of the coefficients at even powers."""
        low = self.field.zeros(2 * self._low.size - 1)
        low[::2] = self._low.square()
        return self._of(low) if modulus is None else self._of(low) % modulus

    # ---- values and roots

    def __call__(self, at: Any, elementwise: bool = True) -> Any:
        """The value at each element of an array, of which integers are representations; of a polynomial, the composition; and not
        elementwise, the value at a square matrix.

        >>> bf.Poly.Int(0b111)(bf.Gf2([[1, 1], [1, 0]]), elementwise=False)
        Gf2([[0x0, 0x0], [0x0, 0x0]])
        """
        if not elementwise:
            return self._at_matrix(self.field._operand(at))
        if not isinstance(at, Poly):
            return self.field.evaluate(self._low, at)
        result = self.Zero(self.field)
        for coefficient in self._low[::-1]:
            result = result * at + coefficient
        return result

    def _at_matrix(self, matrix: Any) -> Any:
        if matrix.ndim != 2 or matrix.shape[0] != matrix.shape[1]:
            raise ValueError(f"a square matrix is wanted, and the shape is {matrix.shape}")
        one = matrix.Identity(len(matrix))
        result = one * self._low[-1]
        for coefficient in self._low[-2::-1]:
            result = result @ matrix + one * coefficient
        return result

    def reverse(self) -> Poly:
        """The polynomial with the coefficients in the opposite order, x**degree times the value at 1 / x.

        >>> bf.Poly.Int(0b1011).reverse()
        Poly(x^3 + x^2 + 1, Gf2)
        """
        return self._of(self._low[::-1].copy())

    def derivative(self, k: int = 1) -> Poly:
        """The derivative, or the k-th one.

        >>> bf.Poly.Int(0b1111).derivative()
        Poly(x^2 + 1, Gf2)
        """
        if k < 0:
            raise ValueError("a number of derivatives from 0 on is wanted")
        result = self
        for _ in range(min(k, 2)):
            low = result._low[1:].copy() if result.degree else self.field.zeros(1)
            low[1::2] = 0
            result = self._of(low)
        return result

    def roots(self, multiplicity: bool = False) -> Any:
        """The roots in the field, by their representations; with `multiplicity` also how often each is one.

        >>> bf.Poly.Roots(bf.Rijndael8b([9, 5, 5])).roots(multiplicity=True)
        (Rijndael8b([0x5, 0x9]), array([2, 1]))
        """
        if not self:
            raise ValueError("each element is a root of the polynomial 0")
        found = self.field(sorted(int(it) for it in _distinct_roots(self)))
        if not multiplicity:
            return found
        times, rest = np.zeros(found.size, np.int64), self
        for at, root in enumerate(found):
            while not rest(root):
                rest //= self._of(self.field([int(root), 1]))
                times[at] += 1
        return found, times

    # ---- factors

    def _monic(self) -> Poly:
        if not self:
            raise ValueError("the polynomial 0 has no factors")
        return self.__mul__(self._low[-1].reciprocal())

    def factors(self) -> tuple[list[Poly], list[int]]:
        """The monic irreducible factors, by degree and representation, and how often each is one. The polynomial is their product times its
        highest coefficient.

        >>> bf.Poly.Int(0b101110).factors()
        ([Poly(x, Gf2), Poly(x + 1, Gf2), Poly(x^3 + x^2 + 1, Gf2)], [1, 1, 1])
        >>> (bf.Poly.Roots(bf.Rijndael8b([3, 3, 5]))).factors()
        ([Poly(x + 0x3, Rijndael8b), Poly(x + 0x5, Rijndael8b)], [2, 1])
        """
        return _factors.factors(self._monic())

    def square_free_factors(self) -> tuple[list[Poly], list[int]]:
        """For each multiplicity of a factor the product of the monic irreducible factors that have it, and the multiplicities.

        >>> bf.Poly.Roots(bf.Rijndael8b([3, 3, 5, 6])).square_free_factors()
        ([Poly(x^2 + 0x3*x + 0x1e, Rijndael8b), Poly(x + 0x3, Rijndael8b)], [1, 2])
        """
        parts = sorted(_factors.square_free_parts(self._monic()).items())
        return [part for _, part in parts], [times for times, _ in parts]

    def is_irreducible(self) -> bool:
        """Whether the degree is 1 at least and no polynomials of lower ones have this product.

        >>> bf.Poly.Int(0x11B).is_irreducible(), bf.Poly.Int(0x101).is_irreducible()
        (True, False)
        """
        return self.degree > 0 and _factors.is_irreducible(self)

    def is_primitive(self) -> bool:
        """Whether the powers of x modulo this polynomial are all polynomials of lower degree but 0. Its degree times that of the field is at
        most 128.

        >>> bf.Poly.Int(0x11D).is_primitive(), bf.Poly.Int(0x11B).is_primitive()
        (True, False)
        """
        return _primitive.is_primitive(self)

    def is_square_free(self) -> bool:
        """Whether no factor but a constant is there twice.

        >>> bf.Poly.Int(0b101).is_square_free()
        False
        """
        return bool(self) and gcd(self, self.derivative()).degree == 0

    def companion_matrix(self) -> Any:
        """The matrix with ones below its diagonal whose characteristic polynomial this is, which is monic and of degree 1 at least.

        >>> bf.Poly.Int(0b1011).companion_matrix()
        Gf2([[0x0, 0x0, 0x1], [0x1, 0x0, 0x1], [0x0, 0x1, 0x0]])
        """
        if not self.degree or not self.is_monic:
            raise ValueError("a monic polynomial of degree 1 at least has a companion matrix")
        result = self.field(np.eye(self.degree, k=-1, dtype=np.uint8))
        result[:, -1] += self._low[:-1]
        return result


def _trimmed(low: Any) -> Any:
    """The coefficients up to the last that is not 0, or the first alone."""
    places = np.flatnonzero(low)
    return low[: places[-1] + 1 if places.size else 1]


def _lengthened(low: Any, size: int) -> Any:
    """A copy of the coefficients, with zeros behind them."""
    result = low.zeros(size)
    result[: low.size] = low
    return result


def _distinct_roots(poly: Poly) -> list[Any]:
    """The roots, each once. Those of x**order - x are all elements, so that the greatest common divisor with it has the roots alone. Of
    two roots r and s some trace of b * r and b * s differs, for the elements b of a basis, so that the greatest common divisors with
    the traces of b * x take the factors apart (Berlekamp, Mathematics of Computation 24, 1970)."""
    field: Any = poly.field
    powers = [Poly.Identity(field) % poly]
    for _ in range(field.degree):
        powers.append(powers[-1]._squared(poly))
    factors = [gcd(poly, powers.pop() + powers[0])]
    rows = field(np.stack([_lengthened(it._low, max(poly.degree, 1)) for it in powers]))
    for at in range(field.degree):
        if all(it.degree < 2 for it in factors):
            break
        scalars = [field(1 << at)]
        while len(scalars) < field.degree:
            scalars.append(scalars[-1].square())
        trace = Poly(field(scalars) @ rows, order="asc")
        factors = [part for it in factors for part in _parted(it, trace)]
    return [it._low[0] for it in factors if it.degree]


def _parted(factor: Poly, trace: Poly) -> tuple[Poly, ...]:
    """The monic factors of a monic polynomial over GF(2)'s two values of a trace."""
    if factor.degree < 2:
        return (factor,)
    part = gcd(factor, trace)
    return (part, factor // part) if 0 < part.degree < factor.degree else (factor,)


def gcd(a: Poly, b: Poly) -> Poly:
    """The monic greatest common divisor of two polynomials, 0 of 0 and 0.

    >>> F = bf.Rijndael8b
    >>> bf.gcd(bf.Poly.Roots(F([1, 2])), bf.Poly.Roots(F([2, 3])))
    Poly(x + 0x2, Rijndael8b)
    """
    while b:
        a, b = b, a % b
    return a.__mul__(a._low[-1].inverse_or_zero())


def _field(field: Any) -> Any:
    """The field that the second argument of a function names."""
    if isinstance(field, type) and issubclass(field, FieldArray) and field is not FieldArray:
        return field
    raise TypeError(f"the arguments are a degree, and a field as bf.Rijndael8b, by default Gf2; and {field!r} is no field")


def irreducible_poly(degree: int, field: type[FieldArray] = Gf2) -> Poly:
    """The monic irreducible polynomial of a degree whose integer, as `Poly.Int` takes it, is the least.

    >>> bf.irreducible_poly(8)
    Poly(x^8 + x^4 + x^3 + x + 1, Gf2)
    """
    return _factors.first_irreducible(degree, _field(field))


def primitive_poly(degree: int, field: type[FieldArray] = Gf2) -> Poly:
    """The monic primitive polynomial of a degree whose integer, as `Poly.Int` takes it, is the least. The degree times that of the field
    is at most 128.

    >>> bf.primitive_poly(8), bf.primitive_poly(2, bf.BinaryField4)
    (Poly(x^8 + x^4 + x^3 + x^2 + 1, Gf2), Poly(x^2 + x + 0x5, BinaryField4))
    """
    return _primitive.first_primitive(degree, _field(field))


def conway_poly(characteristic: int, degree: int) -> Poly:
    """The Conway polynomial over GF(2) of a degree from 1 to 64; the characteristic is 2. It is the least of the primitive polynomials for
    which, of a root r, the power of r by (2**degree - 1) / (2**d - 1) is a root of the Conway polynomial of each d that divides the degree.

    >>> bf.conway_poly(2, 8)
    Poly(x^8 + x^4 + x^3 + x^2 + 1, Gf2)
    """
    return Poly.Int(_primitive.conway(characteristic, degree))


def lcm(*polys: Poly) -> Poly:
    """The monic least common multiple of polynomials, 0 where one is 0.

    >>> F = bf.Rijndael8b
    >>> bf.lcm(bf.Poly.Roots(F([1, 2])), bf.Poly.Roots(F([2]))) == bf.Poly.Roots(F([1, 2]))
    True
    """
    if not polys:
        raise ValueError("a polynomial is wanted at least")
    result = gcd(polys[0], polys[0])
    for it in polys[1:]:
        common = gcd(result, it)
        product = result * it // common if common else common
        result = gcd(product, product)
    return result


def crt(remainders: Iterable[Poly], moduli: Iterable[Poly]) -> Poly:
    """The polynomial of least degree that has each of some remainders modulo a polynomial, of which no two have a common factor.

    >>> F = bf.Rijndael8b
    >>> p = bf.crt([bf.Poly(F([1])), bf.Poly(F([7]))], [bf.Poly.Roots(F([2])), bf.Poly.Roots(F([3]))])
    >>> p(F([2, 3]))
    Rijndael8b([0x1, 0x7])
    """
    rests, divisors = list(remainders), list(moduli)
    if not rests or len(rests) != len(divisors):
        raise ValueError("expected as many remainders as moduli, and one at least")
    result, product = rests[0] % divisors[0], divisors[0]
    for rest, divisor in zip(rests[1:], divisors[1:]):
        common, inverse, _ = egcd(product, divisor)
        if common.degree:
            raise ValueError("two of the moduli have a common factor")
        result = result + (rest - result) * inverse % divisor * product
        product = product * divisor
    return result


def egcd(a: Poly, b: Poly) -> tuple[Poly, Poly, Poly]:
    """The monic greatest common divisor, and the polynomials s and t for which it is s * a + t * b.

    >>> a, b = bf.Poly.Int(0b1011), bf.Poly.Int(0b110)
    >>> d, s, t = bf.egcd(a, b)
    >>> d, s * a + t * b == d
    (Poly(1, Gf2), True)
    """
    field = a.field
    rests, left, right = (a, b), (Poly.One(field), Poly.Zero(field)), (Poly.Zero(field), Poly.One(field))
    while rests[1]:
        quotient = rests[0] // rests[1]
        rests, left, right = ((it[1], it[0] - quotient * it[1]) for it in (rests, left, right))
    scale = rests[0]._low[-1].inverse_or_zero()
    return rests[0] * scale, left[0] * scale, right[0] * scale


def lagrange_poly(x: Any, y: Any) -> Poly:
    """The polynomial of least degree with the value y[i] at x[i], for elements x that differ: by Newton's divided differences.

    >>> F = bf.Rijndael8b
    >>> bf.lagrange_poly(F([1, 2, 3]), F([1, 4, 5]))
    Poly(x^2, Rijndael8b)
    """
    if not isinstance(x, FieldArray):
        raise TypeError("the points must be elements")
    differences = x._operand(y).copy()
    if x.ndim != 1 or x.shape != differences.shape:
        raise ValueError("points and values must have one dimension and one length")
    if len(set(x.tolist())) < x.size:
        raise ValueError("the points must differ")
    for at in range(1, x.size):
        differences[at:] = (differences[at:] - differences[at - 1 : -1]) / (x[at:] - x[:-at])
    low = x.zeros(max(x.size, 1))
    for at in range(x.size - 1, -1, -1):
        # What is there times x - x[at], and the difference.
        shifted = x.zeros(low.size)
        shifted[1:] = low[:-1]
        shifted.add_scaled(x[at], low)
        low = shifted
        low[0] += differences[at]
    return Poly._of(low)
