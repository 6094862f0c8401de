"""Tests of the Python package's polynomials and facts of fields, against lists of plain integers: check_polynomials.py.

The package is the one that Python finds, as check_package.py has it. A polynomial is compared with a list of its coefficients, the
lowest first and the last not 0, over which the functions here compute by the definitions of the fields.
"""

import itertools
import math
import random
import unittest
from unittest import mock

import definitions
import numpy as np
from check_package import FIELDS

import binary_field as bf

SMALL = [it for it in FIELDS.values() if it.degree <= 8]


def defined_of(field):
    return definitions.FIELDS[field._name]


def trimmed(low):
    """Without zeros behind the last coefficient that is not 0."""
    while low and not low[-1]:
        low = low[:-1]
    return low


def plain_sum(a, b):
    return trimmed([x ^ y for x, y in itertools.zip_longest(a, b, fillvalue=0)])


def plain_product(defined, a, b):
    """By the sums over the pairs of places."""
    result = [0] * (len(a) + len(b))
    for (i, x), (j, y) in itertools.product(enumerate(a), enumerate(b)):
        result[i + j] ^= defined.multiply(x, y)
    return trimmed(result)


def plain_value(defined, low, point):
    return definitions.total(defined.multiply(it, defined.power(point, at)) for at, it in enumerate(low))


def low_of(poly):
    """The list of a polynomial."""
    return trimmed(poly.coeffs[::-1].tolist())


def drawn(field, draw, degree):
    """A polynomial and its list; of degree -1 the polynomial 0."""
    low = [draw.randrange(field.order) for _ in range(degree)] + [draw.randrange(1, field.order)] * (degree >= 0)
    return bf.Poly(field(low or [0]), order="asc"), low


def every_pair():
    """Each field with its definition, and two polynomials with their lists, of degrees from that of 0 on."""
    draw = random.Random(60)
    for field in FIELDS.values():
        for degrees in itertools.product((-1, 0, 1, 3, 6), repeat=2):
            yield field, defined_of(field), *(drawn(field, draw, it) for it in degrees)


class Polynomials(unittest.TestCase):
    """The class, over every field."""

    def test_what_it_holds(self):
        for field, _, (p, low), _ in every_pair():
            held = low or [0]
            self.assertEqual((p.coeffs.tolist(), p.degree, len(p), bool(p)), (held[::-1], len(held) - 1, len(held), low != []))
            self.assertEqual((p.field, bf.Poly(held[::-1] + [], field), bf.Poly([0, 0] + held[::-1], field)), (field, p, p))
            self.assertEqual(p.coefficients(9, "asc").tolist(), held + [0] * (9 - len(held)))
            places = [at for at in reversed(range(len(low))) if low[at]]
            self.assertEqual((p.nonzero_degrees.tolist(), p.nonzero_coeffs.tolist()), (places, [low[at] for at in places]))
            self.assertEqual((p.degrees.tolist(), p.is_monic), (list(range(p.degree, -1, -1)), low[-1:] == [1]))
            self.assertEqual(bf.Poly.Degrees(places, [low[at] for at in places], field), p)
            self.assertEqual((bf.Poly.Str(str(p), field), bf.Poly.Int(int(p), field)), (p, p))
            self.assertEqual(int(p), sum(it << field.degree * at for at, it in enumerate(low)))
            self.assertEqual((hash(p), p == bf.Poly(p.coeffs)), (hash(bf.Poly(p.coeffs)), True))
            p.coeffs[0] = 1
            p.coefficients()[0] = 1
            self.assertEqual(low_of(p), low)

    def test_arithmetic(self):
        for field, defined, (p, low), (q, other) in every_pair():
            self.assertEqual((low_of(p + q), low_of(p - q), low_of(-p)), (plain_sum(low, other),) * 2 + (low,))
            product = plain_product(defined, low, other)
            self.assertEqual((low_of(p * q), p == q), (product, low == other))
            scalar = field.order - 1
            scaled = plain_product(defined, low, [scalar])
            self.assertEqual((low_of(p * field(scalar)), low_of(field(scalar) * p)), (scaled, scaled))
            self.assertEqual((p + field(scalar), field(scalar) + p), (p + bf.Poly(field([scalar])),) * 2)
            self.assertEqual((p * 0, 1 * p, p + 1 + p, 1 - p), (0, p, 1, p + 1))
            self.assertEqual((low_of(p**0), low_of(p**3)), ([1], plain_product(defined, plain_product(defined, low, low), low)))
            if not q:
                for wrong in (lambda: divmod(p, q), lambda: p // q, lambda: p % 0, lambda: 1 % q, lambda: pow(p, 2, q)):
                    self.assertRaises(ZeroDivisionError, wrong)
                continue
            quotient, rest = divmod(p, q)
            self.assertEqual((quotient, rest), (p // q, p % q))
            self.assertTrue(not rest or rest.degree < q.degree)
            self.assertEqual(plain_sum(plain_product(defined, low_of(quotient), other), low_of(rest)), low)
            self.assertEqual((p * q // q, p * q % q, pow(p, 5, q), field(scalar) // q), (p, 0, p**5 % q, bf.Poly(field([scalar])) // q))

    def test_products_by_transforms(self):
        draw = random.Random(67)
        for field, least, lengths in itertools.product(FIELDS.values(), (1, 3), ((1, 1), (1, 4), (5, 4), (9, 8), (3, 2))):
            low = [[draw.randrange(field.order) for _ in range(it)] for it in lengths]
            by_transforms = mock.Mock(side_effect=bf._numpy.product_by_transforms)
            with mock.patch.multiple(bf._numpy, _BY_TRANSFORMS=least, product_by_transforms=by_transforms):
                found = np.convolve(field(low[0]), field(low[1]))
            self.assertEqual(by_transforms.called, field is not bf.Poly192 and min(lengths) >= least)
            self.assertEqual((type(found), found.size, trimmed(found.tolist())), (field, sum(lengths) - 1, plain_product(defined_of(field), *low)))
        for field, lengths in [(it, (256, 300)) for it in FIELDS.values()] + [(bf.Rijndael8b, (66000, 257)), (bf.BinaryField16, (256, 65281))]:
            a, b = (field.random(it, seed=it) for it in lengths)
            found, short = np.convolve(a, b), np.convolve(a, b, "valid")
            with mock.patch.object(bf._numpy, "_BY_TRANSFORMS", sum(lengths)):
                self.assertTrue(np.array_equal(np.convolve(a, b), found) and np.array_equal(np.convolve(a, b, "valid"), short))

    def test_divisors(self):
        for field, _, (p, _), (q, _) in every_pair():
            common = bf.Poly.Random(2, seed=3, field=field)
            d, s, t = bf.egcd(p * common, q * common)
            self.assertEqual((d, s * p * common + t * q * common), (bf.gcd(p * common, q * common), d))
            if p or q:
                self.assertEqual((d.is_monic, p * common % d, q * common % d, d % common), (True, 0, 0, 0))
            else:
                self.assertEqual(d, 0)

    def test_values(self):
        draw = random.Random(61)
        for field, defined, (p, low), (q, _) in every_pair():
            points = [draw.randrange(field.order) for _ in range(4)] + [0, 1]
            wanted = [plain_value(defined, low, it) for it in points]
            self.assertEqual((p(field(points)).tolist(), p(points).tolist(), int(p(points[0]))), (wanted, wanted, wanted[0]))
            self.assertTrue((p(q)(field(points)) == p(q(field(points)))).all())
            self.assertEqual(low_of(p.derivative()), trimmed([it if not at % 2 else 0 for at, it in enumerate(low[1:])]))
            self.assertEqual((p.derivative(0), p.derivative(2), p.derivative(10**9)), (p, 0, 0))

    def test_roots(self):
        draw = random.Random(62)
        for field, defined, (p, low), _ in every_pair():
            if field in SMALL and p:
                wanted = [it for it in range(field.order) if not plain_value(defined, low, it)]
                self.assertEqual(p.roots().tolist(), wanted)
        for field in FIELDS.values():
            given = sorted({draw.randrange(field.order) for _ in range(7)})
            times = [draw.randrange(1, 4) for _ in given]
            product, again = bf.Poly.Roots(field(given), times), [it for it, count in zip(given, times) for _ in range(count)]
            self.assertEqual((product.degree, product.is_monic, bf.Poly.Roots(again, field=field)), (sum(times), True, product))
            self.assertTrue((product(given) == 0).all())
            roots, found = product.roots(multiplicity=True)
            self.assertEqual((type(roots), roots.tolist(), found.tolist()), (field, given, times))
        for field in FIELDS.values():
            self.assertEqual((bf.Poly.One(field).roots().tolist(), bf.Poly.Roots(field([])), bf.Poly.Roots([0], [0], field)), ([], 1, 1))
            self.assertRaises(ValueError, bf.Poly.Zero(field).roots)
        for field in SMALL:
            everything = bf.Poly.Degrees([field.order, 1], field=field)
            self.assertEqual((everything.roots().tolist(), bf.Poly.Roots(field.elements)), (list(range(field.order)), everything))

    def test_interpolation(self):
        draw = random.Random(63)
        for field in FIELDS.values():
            for count in range(min(field.order, 7) + 1):
                x = field(draw.sample(range(min(field.order, 1 << 62)), count))
                y = field.random(count, seed=count)
                found = bf.lagrange_poly(x, y)
                self.assertTrue((found(x) == y).all() and len(found) <= max(count, 1))
                self.assertEqual(bf.lagrange_poly(x, y.tolist()), found)
            self.assertRaises(ValueError, bf.lagrange_poly, field([0, 0]), field([1, 1]))
            self.assertRaises(ValueError, bf.lagrange_poly, field([0, 1]), field([1]))
            self.assertRaises(ValueError, bf.lagrange_poly, field([[0, 1]]), field([[1, 0]]))
            self.assertRaises(TypeError, bf.lagrange_poly, [0, 1], [1, 0])

    def test_what_is_refused(self):
        p, q, draw = bf.Poly.Int(0x11B), bf.Poly([1, 2], bf.Rijndael8b), bf.Poly.Random
        for mixed in (
            lambda: p + q, lambda: p * q, lambda: divmod(p, q), lambda: bf.gcd(p, q), lambda: bf.egcd(p, q), lambda: p + bf.Rijndael8b(1),
            lambda: p % q, lambda: bf.Rijndael8b(1) * p, lambda: p * 2, lambda: 2 + p, lambda: p + "1", lambda: p * np.array([1, 0]),
            lambda: bf.Gf2([1, 0]) * p, lambda: p**0.5, lambda: p / p, lambda: p(q), lambda: p(bf.Rijndael8b(1)), lambda: np.add(p, p),
            lambda: bf.Poly(bf.Gf2([1]), bf.Rijndael8b), lambda: bf.lagrange_poly(bf.Gf2([1]), bf.Rijndael8b([1])), lambda: bf.Gf2([1, 0]).__iadd__(p),
        ):
            self.assertRaises(TypeError, mixed)
        for wrong in (
            lambda: bf.Poly([]), lambda: bf.Poly([[1]]), lambda: bf.Poly([2]), lambda: bf.Poly([1], order="up"), lambda: p**-1, lambda: draw(-1),
            lambda: bf.Poly.Degrees([1, 1]), lambda: bf.Poly.Degrees([-1]), lambda: bf.Poly.Degrees([1], [1, 1]), lambda: bf.Poly.Int(-1),
            lambda: bf.Poly.Roots([[1]]), lambda: bf.Poly.Roots([1], [1, 2]), lambda: bf.Poly.Roots([1], [-1]), lambda: p.derivative(-1),
            lambda: p.coefficients(3), lambda: p.coefficients(9, "up"), *(lambda it=it: bf.Poly.Str(it) for it in TEXTS),
        ):
            self.assertRaises(ValueError, wrong)
        self.assertEqual((p == q, p != q, p == bf.Rijndael8b(1), bf.Poly.One() == bf.Gf2([1]), p == "x"), (False, True, False, False, False))
        self.assertEqual({bf.Poly.One(), bf.Poly([0x53], bf.Rijndael8b), p}, {1, 0x53, bf.Poly.Int(0x11B)})
        self.assertTrue(bf.Poly.One() == 1 and bf.Gf2(1) == bf.Poly.One() and bf.Poly([0x53], bf.Rijndael8b) == 0x53)

    def test_texts(self):
        self.assertEqual((repr(bf.Poly([3, 0, 1, 1], bf.Poly64)), str(bf.Poly.Zero())), ("Poly(0x3*x^3 + x + 1, Poly64)", "0"))
        self.assertEqual(low_of(bf.Poly.Str("0x10x^2+7 * x - 1 + x^1 + 3", bf.Poly64)), [2, 6, 16])
        for field in FIELDS.values():
            p = bf.Poly.Random(40, seed=4, field=field)
            self.assertEqual((p.degree, bf.Poly.Str(str(p), field), bf.Poly.Random(40, np.random.default_rng(4), field)), (40, p, p))
            self.assertEqual((len(bf.Poly.Random(0, field=field)), bool(bf.Poly.Random(0, 1, field)) or field is bf.Gf2), (1, True))


def is_prime(number):
    """By the test of Miller and Rabin, which is exact below 3 * 10**24 for these bases (Sorenson and Webster, Mathematics of Computation 86)."""
    odd, twos = number - 1, 0
    while odd % 2 == 0:
        odd, twos = odd // 2, twos + 1
    for base in (2, 3, 5, 7, 11, 13, 17, 19, 23, 29, 31, 37, 41):
        powers = [pow(base, odd << at, number) for at in range(twos)]
        if base % number and powers[0] != 1 and number - 1 not in powers:
            return False
    return True


TEXTS = ["", "x +", "y", "x^", "x^-1", "12x", "0xx", "*x", "2x", "x x", "x^2.5", "+"]


def monic_lists(field, degree):
    """All monic polynomials of a degree."""
    return ([*it, 1] for it in itertools.product(range(field.order), repeat=degree))


def divides(defined, divisor, low):
    """Whether a monic polynomial divides another, by the rule of school."""
    rest = list(low)
    while len(rest) >= len(divisor):
        if rest[-1]:
            at = len(rest) - len(divisor)
            rest = [it ^ (defined.multiply(rest[-1], divisor[i - at]) if i >= at else 0) for i, it in enumerate(rest)]
        rest.pop()
    return not any(rest)


class Factors(unittest.TestCase):
    """Irreducible polynomials, and those that a polynomial is a product of."""

    def test_irreducible_polynomials(self):
        for field, most in ((bf.Gf2, 6), (bf.BinaryField2, 4), (bf.BinaryField4, 2)):
            defined = defined_of(field)
            for degree in range(1, most + 1):
                smaller = [it for below in range(1, degree // 2 + 1) for it in monic_lists(field, below)]
                wanted = [low for low in monic_lists(field, degree) if not any(divides(defined, it, low) for it in smaller)]
                polys = [bf.Poly(low, field, order="asc") for low in monic_lists(field, degree)]
                self.assertEqual(sorted(low_of(it) for it in polys if it.is_irreducible()), sorted(wanted))
                self.assertEqual(bf.irreducible_poly(degree, field), min((it for it in polys if low_of(it) in wanted), key=int))
        for poly in (bf.Poly.Zero(), bf.Poly.One(bf.Ghash128)):
            self.assertFalse(poly.is_irreducible())
        self.assertFalse(bf.Poly.Zero().is_square_free())
        self.assertRaises(ValueError, bf.irreducible_poly, 0)

    def test_factors(self):
        draw = random.Random(68)
        for field in FIELDS.values():
            for sizes in ([], [1], [2, 2], [1, 1, 3], [4, 1]):
                parts = [drawn(field, draw, it)[0] for it in sizes]
                scale = field(draw.randrange(1, field.order))
                poly = scale * bf.Poly.One(field)
                for at, it in enumerate(parts):
                    poly *= it ** (at + 1)
                found, times = poly.factors()
                product = bf.Poly(field([int(poly.coeffs[0])]))
                for it, count in zip(found, times):
                    product *= it**count
                self.assertEqual(product, poly)
                self.assertTrue(all(it.is_monic and it.is_irreducible() for it in found))
                self.assertEqual((len(set(found)), [(it.degree, int(it)) for it in found]), (len(found), sorted((it.degree, int(it)) for it in found)))
                self.assertEqual(poly.is_square_free(), set(times) <= {1})
                self.assertEqual(poly.degree > 0 and poly.is_irreducible(), times == [1])
                bases, powers = poly.square_free_factors()
                self.assertEqual(powers, sorted(set(times)))
                for base, power in zip(bases, powers):
                    self.assertEqual(base.factors()[0], [it for it, count in zip(found, times) if count == power])
            self.assertRaises(ValueError, bf.Poly.Zero(field).factors)
            self.assertRaises(ValueError, bf.Poly.Zero(field).square_free_factors)

    def test_roots_are_factors(self):
        draw = random.Random(69)
        for field in FIELDS.values():
            roots = sorted({draw.randrange(field.order) for _ in range(5)})
            found, times = bf.Poly.Roots(field(roots), range(1, len(roots) + 1)).factors()
            self.assertEqual(([low_of(it) for it in found], times), ([[it, 1] for it in roots], list(range(1, len(roots) + 1))))


class Facts(unittest.TestCase):
    """Elements, orders, logarithms, traces, norms and minimal polynomials."""

    def test_elements(self):
        for field in FIELDS.values():
            if field.degree > 16:
                for wrong in (lambda: field.elements, lambda: field.units, lambda: field.primitive_elements):
                    self.assertRaises(ValueError, wrong)
                continue
            self.assertEqual((field.elements.tolist(), field.units.tolist()), (list(range(field.order)), list(range(1, field.order))))
            if field.degree <= 8:
                wanted = [it for it in range(1, field.order) if defined_of(field).has_full_order(it)]
                self.assertEqual(field.primitive_elements.tolist(), wanted)

    def test_primes(self):
        primes = bf._facts._PRIMES
        self.assertEqual(sorted(primes), definitions.PRIMES)
        for field in FIELDS.values():
            group = field.order - 1
            for it in primes:
                while group % it == 0:
                    group //= it
            self.assertEqual(group, 1)
        self.assertTrue(all(is_prime(it) for it in primes) and not is_prime(2047) and not is_prime(3215031751))

    def test_orders(self):
        draw = random.Random(64)
        for field in FIELDS.values():
            defined, group = defined_of(field), field.order - 1
            g = field.primitive_element
            self.assertEqual((g.multiplicative_order(), field(1).multiplicative_order(), field.is_primitive_element(g)), (group, 1, True))
            exponents = [draw.randrange(group) for _ in range(3)] + [group // it for it in definitions.PRIMES if group % it == 0]
            orders = [group // math.gcd(it, group) for it in exponents]
            powers = [defined.power(defined.generator, it) for it in exponents]
            self.assertEqual(field([powers]).multiplicative_order().tolist(), [orders])
            self.assertEqual([field.is_primitive_element(it) for it in powers], [it == group for it in orders])
            self.assertEqual((field.is_primitive_element(0), field([]).multiplicative_order().tolist()), (False, []))
            self.assertRaises(ArithmeticError, field([0, 1]).multiplicative_order)
            self.assertRaises(ValueError, field.is_primitive_element, field([1]))

    def test_logarithms(self):
        draw = random.Random(65)
        for field in FIELDS.values():
            defined, group = defined_of(field), field.order - 1
            if field.degree > 64:
                self.assertRaises(ValueError, field(1).log)
                continue
            exponents = [draw.randrange(group) for _ in range(9)] + [0, group - 1]
            powers = field([defined.power(defined.generator, it) for it in exponents])
            self.assertEqual((powers.log().tolist(), powers[:3].reshape(3, 1).log().tolist()), (exponents, [[it] for it in exponents[:3]]))
            self.assertEqual((int(powers[0].log()), field([]).log().tolist(), field(1).log()), (exponents[0], [], 0))
            base = field.primitive_element**next(it for it in range(group // 2 + 1, 2 * group + 1) if math.gcd(it, group) == 1)
            self.assertEqual([base**it for it in powers.log(base).tolist()], list(powers))
            self.assertRaises(ArithmeticError, field([0]).log)
            for wrong in (0, field([1, 1])) + ((1,) if group > 1 else ()):
                self.assertRaises(ValueError, powers.log, wrong)
        for field in (bf.BinaryField16, bf.Rijndael8b):
            self.assertEqual(sorted(field.units.log().tolist()), list(range(field.order - 1)))

    def test_traces_and_norms(self):
        for field, smaller in itertools.product(FIELDS.values(), repeat=2):
            try:
                field(smaller(1))
            except TypeError:
                self.assertRaises(TypeError, field(1).field_trace, smaller)
                self.assertRaises(TypeError, field(1).field_norm, smaller)
                self.assertRaises(TypeError, field(1).minimal_poly, smaller)
                continue
            a, defined, count = field.random((2, 1), seed=66), defined_of(field), field.degree // smaller.degree
            power = lambda x, _, defined=defined, degree=smaller.degree: defined.frobenius(x, degree)
            conjugates = [definitions.running([0] * (count - 1), power, x) for x in a.ravel().tolist()]
            traces, norms = a.field_trace(smaller), a.field_norm(smaller)
            self.assertEqual((type(traces), type(norms), traces.shape), (smaller, smaller, (2, 1)))
            self.assertEqual(field(traces).ravel().tolist(), [definitions.total(it) for it in conjugates])
            self.assertEqual(field(norms).ravel().tolist(), [definitions.running(it, defined.multiply, 1)[-1] for it in conjugates])
            self.assertEqual(field.zeros(2).field_norm(smaller).tolist(), [0, 0])
            least = a[0, 0].minimal_poly(smaller)
            self.assertEqual((least.field, least.is_monic, least.degree), (smaller, True, len(set(conjugates[0]))))
            self.assertEqual(bf.Poly(field(least.coeffs)), bf.Poly.Roots(field(conjugates[0][: least.degree])))
        self.assertEqual((bf.Gf2(0).minimal_poly(), bf.Rijndael8b(1).minimal_poly()), (bf.Poly.Int(2), bf.Poly.Int(3)))
        self.assertRaises(ValueError, bf.Rijndael8b([1]).minimal_poly)
        self.assertEqual(bf.Rijndael8b([]).field_trace().tolist(), [])

    def test_subfields(self):
        for field, smaller in itertools.product(FIELDS.values(), repeat=2):
            try:
                images = field(smaller.random((2, 3), seed=78))
            except TypeError:
                self.assertRaises(TypeError, field(1).to_subfield, smaller)
                continue
            found = images.to_subfield(smaller)
            self.assertEqual((type(found), found.tolist()), (smaller, smaller.random((2, 3), seed=78).tolist()))
            if smaller.degree < field.degree:
                # The generator is in no smaller field.
                images[1, 1] = field.primitive_element
                self.assertRaises(ValueError, images.to_subfield, smaller)

    def test_moduli(self):
        for name, field in FIELDS.items():
            modulus = definitions.FIELDS[name].row.modulus
            if modulus:
                self.assertEqual((field.irreducible_poly, field(2).minimal_poly()), (bf.Poly.Int(modulus),) * 2)
            elif field is not bf.Poly192:
                self.assertRaises(AttributeError, lambda: field.irreducible_poly)
        self.assertEqual(bf.Poly192.irreducible_poly, bf.Poly([1, 0, 1, 1], bf.Poly64))
        self.assertEqual(bf.Poly192(1 << 64).minimal_poly(bf.Poly64), bf.Poly192.irreducible_poly)


class Primitive(unittest.TestCase):
    """Primitive polynomials and Conway polynomials, and what else bears names of `galois`."""

    def powers_of_x(self, poly):
        """How many polynomials the powers of x are, modulo one."""
        seen, x = set(), bf.Poly.Identity(poly.field) % poly
        power = bf.Poly.One(poly.field) % poly
        while int(power) not in seen:
            seen.add(int(power))
            power = power * x % poly
        return len(seen - {0})

    def test_primitive(self):
        for field, degrees in ((bf.Gf2, (1, 2, 3, 4, 5)), (bf.BinaryField2, (1, 2)), (bf.BinaryField4, (1,))):
            for degree in degrees:
                found = [bf.Poly.Int(it, field) for it in range(field.order**degree, 2 * field.order**degree)]
                wanted = [it for it in found if it.coeffs[-1] and self.powers_of_x(it) == field.order**degree - 1]
                self.assertEqual([it for it in found if it.is_primitive()], wanted)
                self.assertEqual(bf.primitive_poly(degree, field), wanted[0])
                self.assertEqual((wanted[0] * field.primitive_element).is_primitive(), True)
        self.assertFalse(bf.Poly.Zero().is_primitive() or bf.Poly.One().is_primitive() or bf.Poly.Identity().is_primitive())
        # A factor of x**n - 1, and a square, whose powers of x come round too early.
        self.assertFalse(bf.Poly.Int(0x11B).is_primitive() or (bf.Poly.Int(7) ** 2).is_primitive())
        self.assertTrue(bf.Poly(bf.Ghash128([1, int(bf.Ghash128.primitive_element)])).is_primitive())
        self.assertRaises(ValueError, bf.primitive_poly, 0)
        self.assertRaises(ValueError, bf.Poly.Degrees([129, 5, 0]).is_primitive)
        for name in (bf.irreducible_poly, bf.primitive_poly):
            for wrong in (3, int, bf.FieldArray, None):
                self.assertRaisesRegex(TypeError, "is no field$", name, 8, wrong)

    def test_primes(self):
        primes_of_group = bf._primitive.primes_of_group
        for bits in (*range(1, 97), 101, 125, 127, 128):
            rest = (1 << bits) - 1
            for it in primes_of_group(bits):
                self.assertTrue(it < 1 << 40 and all(it % below for below in range(2, min(it, 1000))) or pow(3, it - 1, it) == 1)
                self.assertEqual(rest % it, 0)
                while rest % it == 0:
                    rest //= it
            self.assertEqual(rest, 1)
        for field in FIELDS.values():
            self.assertEqual(list(primes_of_group(field.degree)) if field.degree <= 128 else [], [
                it for it in definitions.PRIMES if (field.order - 1) % it == 0
            ] if field.degree <= 128 else [])

    def test_conway(self):
        # The definition, for each degree: primitive, and with the roots of those of its divisors as powers of its own.
        known = {}
        for degree in range(1, 65):
            poly = bf.conway_poly(2, degree)
            known[degree] = poly
            self.assertEqual((poly.degree, poly.is_primitive()), (degree, True))
            self.assertTrue(self.agrees(poly, known) if degree < 25 or degree in (32, 36, 48, 60, 64) else True)
        # And the least of such, where all are tried.
        for degree in range(1, 11):
            least = next(it for it in map(bf.Poly.Int, range(1 << degree, 2 << degree)) if it.is_primitive() and self.agrees(it, known))
            self.assertEqual(least, known[degree])
        for wrong in ((3, 2), (2, 0), (2, 65), (4, 1)):
            self.assertRaises(ValueError, bf.conway_poly, *wrong)

    def agrees(self, poly, known):
        """Whether a power of x modulo a polynomial is a root of the Conway polynomial of each divisor of its degree."""
        for degree in range(1, poly.degree):
            if poly.degree % degree == 0:
                power = ((1 << poly.degree) - 1) // ((1 << degree) - 1)
                if known[degree](pow(bf.Poly.Identity(), power, poly)) % poly:
                    return False
        return True

    def test_common_multiples_and_remainders(self):
        for field in (bf.Gf2, bf.Rijndael8b):
            draw = np.random.default_rng(79)
            for _ in range(2):
                a, b, c = (bf.Poly.Random(it, draw, field) for it in (3, 2, 4))
                least = bf.lcm(a, b, c)
                self.assertEqual((least % a, least % b, least % c, least.is_monic), (0, 0, 0, True))
                self.assertEqual(bf.lcm(a, b) * bf.gcd(a, b), (a * b) * (a * b).coeffs[0].reciprocal())
                self.assertEqual((bf.lcm(a * b, b).degree, bf.lcm(a, bf.Poly.Zero(field)), bf.lcm(a) * a.coeffs[0]), ((a * b).degree, 0, a))
                moduli = [bf.Poly.Degrees([it], field=field) + 1 for it in (1,)] + [bf.irreducible_poly(3, field), bf.irreducible_poly(2, field)]
                rests = [bf.Poly.Random(1, draw, field), a, b]
                found = bf.crt(rests, moduli)
                self.assertEqual([found % it for it in moduli], [rest % it for rest, it in zip(rests, moduli)])
                self.assertLess(found.degree, 6)
            self.assertRaises(ValueError, bf.crt, [a, b], [moduli[1], moduli[1]])
            self.assertRaises(ValueError, bf.crt, [a], moduli)
        self.assertRaises(ValueError, bf.lcm)
        self.assertRaises(ValueError, bf.crt, [], [])

    def test_values_at_matrices(self):
        for field in FIELDS.values():
            poly, a = bf.Poly.Random(4, seed=80, field=field), field.random((3, 3), seed=81)
            power, total = field.Identity(3), field.zeros((3, 3))
            for it in poly.coefficients(order="asc"):
                total, power = total + power * it, power @ a
            self.assertEqual(poly(a, elementwise=False).tolist(), total.tolist())
            self.assertFalse(a.characteristic_poly()(a, elementwise=False).any())
            self.assertRaises(ValueError, lambda: poly(a[:2], elementwise=False))
            self.assertEqual(poly.reverse(), bf.Poly(poly.coeffs, order="asc"))


if __name__ == "__main__":
    unittest.main()
