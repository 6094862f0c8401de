"""Primitive polynomials: those modulo which the powers of x are all polynomials of lower degree but 0.

Whether x has the order q**n - 1 is found by the primes of that number, which Pollard's method finds (BIT 15, 1975) in
the factors that cyclotomic polynomials have at 2.
"""

from __future__ import annotations

import functools
import math
import operator
from typing import TYPE_CHECKING, Any

import numpy as np

from ._library import WORDS, call

if TYPE_CHECKING:
    from ._poly import Poly

# Above so many bits some 2**n - 1 take too long.
_MOST_BITS = 128
# A number below 3.3 * 10**24 that passes Miller and Rabin's test to these bases is prime (Sorenson and Webster,
# Mathematics of Computation 86, 2017); of larger ones it is all but sure.
_BASES = (2, 3, 5, 7, 11, 13, 17, 19, 23, 29, 31, 37, 41)
# Primes of 2**101 - 1 and 2**125 - 1 that the method takes long to find.
_LARGE = (7432339208719, 269089806001)
# The Conway polynomials over GF(2) of degrees 1 to 64, as Frank Luebeck's tables have them, without their highest
# terms.
_CONWAY = (
    0x1, 0x3, 0x3, 0x3, 0x5, 0x1B, 0x3, 0x1D, 0x11, 0x6F, 0x5, 0xEB, 0x1B, 0xA9, 0x35, 0x2D, 0x9, 0x1403, 0x27,
    0x6F3, 0x65, 0x1F61, 0x21, 0x1E6A9, 0x145, 0x45D3, 0x16AD, 0x20E5, 0x5, 0x328AF, 0x9, 0x8299, 0x3D49, 0x199F7,
    0xCA5, 0xDA6163, 0x3F, 0x4727, 0x9EE5, 0xA5B12B, 0x9, 0x47141A67, 0x59, 0x10B001B, 0x12D841, 0xB24001, 0x21,
    0x2821D89, 0x55F, 0x380B7755, 0x19241, 0x1EA2C493, 0x47, 0x5EA27A097, 0xE91, 0x244486B1D, 0x292D7F, 0xA7451DEB,
    0x7B, 0x3697464A113D, 0x27, 0x17F3F7043, 0x1C38B1F, 0x247F43CB7,
)


def _is_prime(number: int) -> bool:
    """Miller and Rabin's test (Journal of Number Theory 12, 1980)."""
    if any(number % it == 0 for it in _BASES):
        return number in _BASES
    twos = (number - 1 & 1 - number).bit_length() - 1
    for base in _BASES:
        power = pow(base, number >> twos, number)
        if power != 1 and all(pow(power, 1 << it, number) != number - 1 for it in range(twos)):
            return False
    return number > 1


def _divisor(number: int) -> int:
    """A divisor of an odd number that is not prime, but for 1 and itself."""
    root = math.isqrt(number)
    if root * root == number:
        return root
    for shift in range(1, number):
        slow = fast = 2
        found = 1
        while found == 1:
            start, product = (slow, fast), 1
            for _ in range(128):
                slow = (slow * slow + shift) % number
                fast = (fast * fast + shift) % number
                fast = (fast * fast + shift) % number
                product = product * (slow - fast) % number
            found = math.gcd(product, number)
        if found == number:
            # A common divisor came and went among these steps: they are taken one by one.
            (slow, fast), found = start, 1
            while found == 1:
                slow = (slow * slow + shift) % number
                fast = (fast * fast + shift) % number
                fast = (fast * fast + shift) % number
                found = math.gcd(slow - fast, number)
        if found < number:
            return found
    raise ArithmeticError(f"{number} is prime")


def _primes(number: int) -> set[int]:
    """The primes that divide an odd number."""
    if number == 1:
        return set()
    if _is_prime(number):
        return {number}
    part = next((it for it in _LARGE if number % it == 0), 0) or _divisor(number)
    return _primes(part) | _primes(number // part)


@functools.cache
def primes_of_group(bits: int) -> tuple[int, ...]:
    """The primes that divide 2**bits - 1, which is the product of a factor for each divisor of the exponent."""
    if bits > _MOST_BITS:
        raise ValueError(f"the primes of 2**n - 1 are found for n up to {_MOST_BITS}, and this is {bits}")
    parts: dict[int, int] = {}
    for divisor in range(1, bits + 1):
        if bits % divisor == 0:
            below = math.prod(it for at, it in parts.items() if divisor % at == 0)
            parts[divisor] = ((1 << divisor) - 1) // below
    return tuple(sorted(set().union(*map(_primes, parts.values()))))


def _power_of_x(exponent: int, modulus: int) -> int:
    """The power of x modulo a polynomial over GF(2), whose integers have the coefficient of x**i in bit i."""
    degree, result = modulus.bit_length() - 1, 1
    for bit in f"{exponent:b}":
        # The square has the bits at twice their places.
        result = int(f"{result:b}", 4) << (bit == "1")
        while (more := result.bit_length() - 1 - degree) >= 0:
            result ^= modulus << more
    return result if degree else 0


def is_primitive(poly: Poly) -> bool:
    """Whether x has the order q**n - 1 modulo a polynomial of degree n over a field of q elements."""
    from ._poly import Poly

    field: Any = poly.field
    if not poly.degree or not poly._low[0]:
        return False
    bits = poly.degree * field.degree
    group = (1 << bits) - 1
    if field.degree == 1:
        modulus = int(poly)
        comes_round = _power_of_x(group, modulus) == 1
        return comes_round and all(_power_of_x(group // it, modulus) != 1 for it in primes_of_group(bits))
    x, one = Poly.Identity(field), Poly.One(field)
    return pow(x, group, poly) == one and all(pow(x, group // it, poly) != one for it in primes_of_group(bits))


def least(kind: str, degree: int) -> int:
    """The least integer of an irreducible or a primitive polynomial over GF(2) of a degree up to 128, which the library finds."""
    zero, found = np.zeros((), WORDS["u128"]), np.zeros((), WORDS["u128"])
    call(f"field_next_{kind}", degree, zero, found)
    return 1 << degree | int.from_bytes(found.tobytes(), "little")


def first_primitive(degree: int, field: Any) -> Poly:
    """The monic primitive polynomial of a degree with the least integer, as `Poly.Int` takes it."""
    from ._poly import Poly

    if operator.index(degree) < 1:
        raise ValueError("a degree from 1 on is wanted")
    if field.degree == 1 and degree <= _MOST_BITS:
        return Poly.Int(least("primitive", degree))
    number = field.order**degree + 1
    while not is_primitive(Poly.Int(number, field)):
        number += 1
    return Poly.Int(number, field)


def conway(characteristic: int, degree: int) -> int:
    """The integer of a Conway polynomial."""
    if operator.index(characteristic) != 2 or not 1 <= operator.index(degree) <= len(_CONWAY):
        raise ValueError(f"conway_poly(2, degree) is over GF(2), of degrees from 1 to {len(_CONWAY)}")
    return 1 << degree | _CONWAY[degree - 1]
