"""Factors of polynomials over a field of q = 2**n elements, and polynomials of matrices.

A polynomial is taken apart in three steps (Knuth, The Art of Computer Programming 2, section 4.6.2; von zur Gathen and Gerhard, Modern
Computer Algebra, chapter 14): by the multiplicities of its factors, by their degrees, as x**(q**d) - x is the product of the monic
irreducible polynomials whose degrees divide d, and those of one degree by traces of random polynomials.
"""

from __future__ import annotations

import operator
from typing import TYPE_CHECKING, Any, Iterator

import numpy as np

from . import _primitive

if TYPE_CHECKING:
    from ._poly import Poly

# The generator that draws what takes factors of one degree apart begins with this, so that each run goes the same way.
_SEED = 1


def square_free_parts(poly: Poly) -> dict[int, Poly]:
    """Of a monic polynomial, for each multiplicity the product of the factors that have it."""
    from ._poly import Poly, gcd

    parts: dict[int, Poly] = {}
    # The derivative of a square is 0, so that the factors of even multiplicities stay in the rest, and all others come out of it.
    rest = gcd(poly, poly.derivative())
    single, times = poly // rest, 1
    while single.degree:
        both = gcd(single, rest)
        if both.degree < single.degree:
            parts[times] = single // both
        single, rest, times = both, rest // both, times + 1
    if rest.degree:
        root = Poly(rest._low[::2].sqrt(), order="asc")
        parts |= {2 * it: part for it, part in square_free_parts(root).items()}
    return parts


def _degrees(poly: Poly) -> Iterator[tuple[int, Poly]]:
    """Of a monic polynomial without multiple factors, the product of the factors of each degree that it has, the smallest first."""
    from ._poly import Poly, gcd

    x = Poly.Identity(poly.field)
    power, degree = x, 0
    while poly.degree > 2 * degree + 1:
        degree += 1
        for _ in range(poly.field.degree):
            power = power._squared(poly)
        part = gcd(poly, power + x)
        if part.degree:
            yield degree, part
            poly = poly // part
            power = power % poly
    if poly.degree:
        yield poly.degree, poly


def _of_one_degree(poly: Poly, degree: int) -> list[Poly]:
    """The factors of a monic polynomial without multiple ones, which have all this degree."""
    from ._poly import Poly, gcd

    done, parts, draw = [], [poly], np.random.default_rng(_SEED)
    while parts:
        part = parts.pop()
        if part.degree == degree:
            done.append(part)
            continue
        power = trace = Poly.Random(part.degree - 1, draw, poly.field)
        # Modulo each factor it is the trace of an element, which is 0 or 1.
        for _ in range(poly.field.degree * degree - 1):
            power = power._squared(part)
            trace = trace + power
        found = gcd(part, trace)
        parts += [found, part // found] if 0 < found.degree < part.degree else [part]
    return done


def factors(poly: Poly) -> tuple[list[Poly], list[int]]:
    """The monic irreducible factors of a monic polynomial, by degree and representation, and how often each is one."""
    found = [
        (factor, times)
        for times, part in square_free_parts(poly).items()
        for degree, product in _degrees(part)
        for factor in _of_one_degree(product, degree)
    ]
    found.sort(key=lambda it: (it[0].degree, int(it[0])))
    return [factor for factor, _ in found], [times for _, times in found]


def is_irreducible(poly: Poly) -> bool:
    """Whether a polynomial of degree 1 at least has no factor of a lower one but constants (Ben-Or, Symposium on Foundations of Computer
    Science, 1981)."""
    from ._poly import gcd

    monic = gcd(poly, poly)
    return gcd(monic, monic.derivative()).degree == 0 and next(_degrees(monic))[0] == monic.degree


# ---- polynomials of matrices


def _hessenberg(matrix: Any) -> Any:
    """A similar matrix with zeros below its second diagonal (Cohen, A Course in Computational Algebraic Number Theory, algorithm 2.2.9)."""
    result = matrix.copy()
    for at in range(1, len(result) - 1):
        places = at + np.flatnonzero(result[at:, at - 1])
        if not places.size:
            continue
        both, swapped = [at, int(places[0])], [int(places[0]), at]
        result[both] = result[swapped]
        result[:, both] = result[:, swapped]
        scalars = result[at + 1 :, at - 1] / result[at, at - 1]
        result[at + 1 :] += np.multiply.outer(scalars, result[at])
        result[:, at] += result[:, at + 1 :] @ scalars
    return result


def characteristic(matrix: Any) -> Poly:
    """The determinant of x minus a square matrix, by the leading parts of a similar one."""
    from ._poly import Poly

    form, x = _hessenberg(matrix), Poly.Identity(type(matrix))
    parts = [Poly.One(type(matrix))]
    for at in range(len(form)):
        total, below = (x + form[at, at]) * parts[at], form.ones(())
        for above in range(at - 1, -1, -1):
            below = below * form[above + 1, above]
            total = total + parts[above] * (below * form[above, at])
        parts.append(total)
    return parts[-1]


def minimal(matrix: Any) -> Poly:
    """The monic polynomial of least degree that a square matrix makes 0: the combination of its powers that is 0 and begins with the lowest."""
    from ._poly import Poly

    powers = [matrix.Identity(len(matrix))]
    while len(powers) <= len(matrix):
        powers.append(powers[-1] @ matrix)
    rows: Any = np.stack([it.ravel() for it in reversed(powers)])
    return Poly(rows.left_null_space()[-1])


def first_irreducible(degree: int, field: Any) -> Poly:
    """The monic irreducible polynomial of a degree with the least integer, as `Poly.Int` takes it."""
    from ._poly import Poly

    if operator.index(degree) < 1:
        raise ValueError("a degree from 1 on is wanted")
    if field.degree == 1 and degree <= _primitive._MOST_BITS:
        return Poly.Int(_primitive.least("irreducible", degree))
    number = field.order**degree
    while not is_irreducible(Poly.Int(number, field)):
        number += 1
    return Poly.Int(number, field)
