"""Tests of the Python package over a built library, against the definitions: check_package.py.

The package is the one that Python finds, as in PYTHONPATH=python BINARY_FIELD_LIBRARY=FOLDER/lib.
"""

import itertools
import math
import multiprocessing
import operator
import os
import pathlib
import pickle
import random
import subprocess
import sys
import threading
import unittest
from unittest import mock

import definitions
import numpy as np

import binary_field as bf

FIELDS = {it.name: getattr(bf, it.type_name) for it in definitions.fields.FIELDS}


def every_field():
    """Each class with the definitions of its field, and numbers of elements of which none is 0."""
    draw = random.Random(47)
    for name, field in FIELDS.items():
        defined = definitions.FIELDS[name]
        yield field, defined, [[draw.getrandbits(defined.bits) or 1 for _ in range(5)] for _ in range(2)]


class Elements(unittest.TestCase):
    """Making arrays, and what they hold."""

    def test_numbers_enter_and_leave(self):
        for field, _, (x, _) in every_field():
            a = field(x)
            self.assertEqual(a.tolist(), x)
            self.assertEqual([int(it) for it in a], x)
            self.assertEqual(field([hex(it) for it in x]).tolist(), x)
            self.assertEqual(field.from_words(a.to_words()).tolist(), x)
            self.assertEqual(field(list(a)).tolist(), x)
            self.assertEqual(np.asarray(a).tolist(), x)
            self.assertEqual(pickle.loads(pickle.dumps(a)).tolist(), x)
            self.assertEqual((a.shape, a.ndim, a.size, len(a)), ((5,), 1, 5, 5))
            self.assertEqual(field([[1, 0], [0, 1]]).tolist(), [[1, 0], [0, 1]])
            self.assertEqual((field.zeros(3).tolist(), field.ones((1, 2)).tolist()), ([0, 0, 0], [[1, 1]]))
            self.assertEqual((field([]).tolist(), field([]).shape), ([], (0,)))

    def test_other_numbers_are_refused(self):
        for field, defined, _ in every_field():
            for value in (1 << defined.bits, -1, [0, 1 << defined.bits]):
                self.assertRaises(ValueError, field, value)
            for value in (0.5, [None], 1j):
                self.assertRaises(TypeError, field, value)
        self.assertRaises(ValueError, bf.BinaryField4, np.array([3, 16], np.uint8))
        self.assertRaises(ValueError, bf.BinaryField8, np.array([-1]))
        self.assertRaises(ValueError, bf.BinaryField4.from_words, np.array([16], np.uint8))
        self.assertRaises(TypeError, bf.Ghash128.from_words, np.array([1, 2, 3], np.uint64))

    def test_constants(self):
        for field, defined, _ in every_field():
            self.assertEqual((field.degree, field.order, field.characteristic), (defined.bits, 1 << defined.bits, 2))
            self.assertEqual(int(field.primitive_element), defined.generator)

    def test_indexes(self):
        for field, _, (x, _) in every_field():
            a = field(x)
            self.assertEqual((a[1:4].tolist(), a[[4, 0]].tolist(), a[::-1].tolist()), (x[1:4], [x[4], x[0]], x[::-1]))
            self.assertEqual((int(a[-1]), a[np.array([True, False, False, True, False])].tolist()), (x[-1], [x[0], x[3]]))
            m = field([x, x[::-1]])
            self.assertEqual((m[1].tolist(), m[:, 0].tolist(), m[..., 4].tolist()), (x[::-1], [x[0], x[4]], [x[4], x[0]]))
            a[1:3] = a[0]
            a[4] = 1
            self.assertEqual(a.tolist(), [x[0], x[0], x[0], x[3], 1])
            self.assertEqual(m.reshape(-1).tolist(), x + x[::-1])
            self.assertEqual(m.reshape(5, 2).shape, (5, 2))
            self.assertRaises(IndexError, lambda: a[5])

    def test_draws(self):
        for field, _, _ in every_field():
            a = field.random(1000, seed=1)
            self.assertTrue((a == field.random(1000, seed=1)).all())
            self.assertGreater(len(set(a.tolist())), min(field.order, 200) - 1)
            self.assertEqual((field.random((2, 3)).shape, field.random().shape, field.random(0).shape), ((2, 3), (), (0,)))

    def test_texts(self):
        self.assertEqual(repr(bf.BinaryField8([1, 255])), "BinaryField8([0x1, 0xff])")
        self.assertEqual(str(bf.Ghash128([[1 << 127], [2]])), "[[0x80000000000000000000000000000000], [0x2]]")
        self.assertEqual(repr(bf.Poly192(1 << 64)), "Poly192(0x10000000000000000)")
        self.assertEqual((f"{bf.Ghash128(255):x}", f"{bf.Gf2([1, 0]):03d}", f"{bf.Ghash128(255)}"), ("ff", "[001, 000]", "0xff"))
        self.assertEqual((f"{bf.Ghash128([0, 1, 2, 0x87]):p}", f"{bf.Poly64(1 << 63):p}"), ("[0, 1, x, x^7 + x^2 + x + 1]", "x^63"))
        for element, spec in ((bf.Ghash128(255), "s"), (bf.BinaryField8(3), "p"), (bf.Gf2(1), "p"), (bf.Poly192(3), "p")):
            self.assertRaises(ValueError, format, element, spec)
        self.assertEqual(str(bf.Gf2.zeros(5000)), "[0x0, 0x0, 0x0, .., 0x0, 0x0, 0x0], 5000 elements of shape (5000,)")


    def test_ways_to_print(self):
        a = bf.Rijndael8b([0, 1, 2, 0x53])
        with bf.Rijndael8b.repr("int"):
            self.assertEqual((repr(a), f"{a:x}", str(bf.BinaryField8(16))), ("Rijndael8b([0, 1, 2, 83])", "[0, 1, 2, 53]", "0x10"))
            with bf.Rijndael8b.repr("poly"):
                self.assertEqual(str(a), "[0, 1, x, x^6 + x^4 + x + 1]")
            self.assertEqual(str(a[3]), "83")
        self.assertEqual(str(a[3]), "0x53")
        for field in (it for it in FIELDS.values() if it.degree <= 16):
            g = field.primitive_element
            with field.repr("power"):
                shown = str(field([0, 1, g, g**2] if field.degree > 2 else [0, 1]))
                self.assertEqual((shown, str(field(0))), ("[0, 1, g, g^2]" if field.degree > 2 else "[0, 1]", "0"))
            field.repr("int")
            self.assertEqual(str(field(1)), "1")
            field.repr()
            self.assertEqual(str(field(1)), "0x1")
        with bf.BinaryField16.repr("power"):
            self.assertTrue(str(bf.BinaryField16.ones(2000)).startswith("[1, 1, 1, .., 1, 1, 1], 2000"))
        for field, wrong in ((bf.Ghash128, "power"), (bf.BinaryField8, "poly"), (bf.Poly192, "poly"), (bf.Gf2, "decimal")):
            self.assertRaises(ValueError, field.repr, wrong)
            self.assertEqual(str(field(1)), "0x1")


class Arithmetic(unittest.TestCase):
    """The operators, and numpy's functions."""

    def test_operators(self):
        for field, defined, (x, y) in every_field():
            a, b = field(x), field(y)
            products = [defined.multiply(*it) for it in zip(x, y)]
            quotients = [defined.multiply(m, defined.inverse(n)) for m, n in zip(x, y)]
            sums = [m ^ n for m, n in zip(x, y)]
            inverses = [defined.inverse(it) for it in x]
            for wanted, found in [
                (sums, a + b), (sums, a - b), (sums, np.add(a, b)), (sums, np.subtract(a, b)), (x, -a), (x, +a), (x, np.negative(a)),
                (products, a * b), (products, np.multiply(a, b)), (quotients, a / b), (quotients, np.divide(a, b)),
                (inverses, 1 / a), (inverses, a**-1), (inverses, np.reciprocal(a)), (x, a * 1), (x, 1 * a), (x, 0 + a), (x, np.uint8(0) + a),
                ([it ^ 1 for it in x], a + 1), ([it ^ 1 for it in x], 1 - a), ([0] * 5, a * 0), ([0] * 5, a - a),
                ([defined.square(it) for it in x], np.square(a)), ([defined.square_root(it) for it in x], np.sqrt(a)),
                ([defined.power(it, 5) for it in x], a**5), ([defined.power(it, 5) for it in x], np.power(a, 5)), ([1] * 5, a**0),
                ([defined.multiply(it, y[0]) for it in x], a * b[0]), ([defined.multiply(it, y[0]) for it in x], b[0] * a),
            ]:
                self.assertEqual(found.tolist(), wanted)
                self.assertIs(type(found), field)
            self.assertTrue((a ** (1 << defined.bits) == a).all())
            self.assertTrue((a ** ((1 << defined.bits) - 2) == 1 / a).all())
            self.assertEqual((a == b).tolist(), [m == n for m, n in zip(x, y)])
            self.assertEqual((a != x).tolist(), [False] * 5)

    def test_vectors_and_matrices(self):
        for field, defined, (x, y) in every_field():
            a, b = field(x), field(y)
            dot = definitions.total(defined.multiply(*it) for it in zip(x, y))
            for found in (a.dot(b), a @ b, np.dot(a, b), (a * b).sum(), np.sum(a * b), np.matmul(a, b)):
                self.assertEqual(int(found), dot)
            self.assertEqual(int(np.prod(a)), definitions.running(x, defined.multiply, 1)[-1])
            self.assertEqual((int(field([]).prod()), int(field([]).sum()), int(field([]) @ field([]))), (1, 0, 0))
            m = field([x, y])
            self.assertEqual((m @ b).tolist(), [int(a @ b), int(b @ b)])
            self.assertEqual((m @ field([[it] for it in y])).tolist(), [[int(a @ b)], [int(b @ b)]])
            self.assertEqual((m * b).tolist(), [(a * b).tolist(), (b * b).tolist()])
            self.assertEqual((m * field([[x[0]], [1]])).tolist(), [(a * a[0]).tolist(), y])
            a.add_scaled(b[1], b)
            self.assertEqual(a.tolist(), [m ^ defined.multiply(y[1], n) for m, n in zip(x, y)])
            b.add_scaled(1, b)
            self.assertEqual(b.tolist(), [0] * 5)
            self.assertEqual(np.concatenate([field(x), field(y)]).tolist(), x + y)
            self.assertTrue(np.array_equal(field(x), field(x)) and not np.array_equal(field(x), field(y + [0])))

    def test_polynomials(self):
        for field, defined, (x, y) in every_field():
            wanted = []
            for point in y:
                value = 0
                for it in reversed(x):
                    value = defined.multiply(value, point) ^ it
                wanted.append(value)
            self.assertEqual(field.evaluate(field(x), field(y)).tolist(), wanted)
            self.assertEqual(field.evaluate([], [0, 1]).tolist(), [0, 0])
            self.assertEqual(field.evaluate(field(x)[::-1], field([y, y])[:, ::-1]).tolist(), [field.evaluate(x[::-1], y[::-1]).tolist()] * 2)
            for coefficients in (field([x]), field(1), [[1, 2]] if field.degree > 1 else [[1, 1]]):
                self.assertRaises(ValueError, field.evaluate, coefficients, y)

    def test_what_is_refused(self):
        for field, _, (x, y) in every_field():
            a = field(x)
            for zero in (lambda: a / 0, lambda: 1 / field([1, 0]), lambda: field([0, 1]) ** -1, lambda: np.reciprocal(field([0]))):
                self.assertRaises(ZeroDivisionError, zero)
            self.assertEqual(field([0, 1]).inverse_or_zero().tolist(), [0, 1])
            other = bf.Poly64 if field is not bf.Poly64 else bf.BinaryField64
            for mixed in (lambda: a * other(1), lambda: a + 2, lambda: a * [1] * 5, lambda: np.arange(5) * a, lambda: a**0.5, lambda: np.exp(a)):
                self.assertRaises(TypeError, mixed)
            self.assertRaises(ValueError, lambda: a * field([1, 1]))
            self.assertRaises(ValueError, lambda: a @ field([1, 1]))
            self.assertRaises(TypeError, hash, a)


class Maps(unittest.TestCase):
    """Changes of basis, linear maps and transforms."""

    def test_bases(self):
        for tower, polynomials in ((bf.BinaryField8, bf.Rijndael8b), (bf.BinaryField64, bf.Poly64), (bf.BinaryField128, bf.Ghash128)):
            a = tower.random((3, 4), seed=5)
            columns = definitions.columns(tower.degree, False)
            self.assertEqual(polynomials(a).reshape(-1).tolist(), [definitions.linear_map(columns, it) for it in a.reshape(-1).tolist()])
            self.assertTrue((a.to(polynomials).to(tower) == a).all())
            self.assertTrue(((a * a).to(polynomials) == a.to(polynomials) * a.to(polynomials)).all())
            self.assertTrue((polynomials(a.T) == a.to(polynomials).T).all())
        self.assertRaises(TypeError, bf.BinaryField8, bf.Poly64(1))
        for wrong in (bf.Rijndael8b, "x", None, bf.FieldArray, int):
            self.assertRaises(TypeError, bf.Ghash128(1).to, wrong)

    def test_larger_fields(self):
        towers = [it for it in FIELDS.values() if it.__name__.startswith("BinaryField") or it is bf.Gf2]
        for field in FIELDS.values():
            for larger in FIELDS.values():
                a, b = field.random(9, seed=20), field.random(9, seed=21)
                if larger.degree % field.degree or (larger is not field and larger.degree == field.degree and {field, larger}.isdisjoint(towers)):
                    self.assertRaises(TypeError, larger, a)
                    continue
                x, y = larger(a), larger(b)
                self.assertEqual((larger(a + b).tolist(), larger(a * b).tolist()), ((x + y).tolist(), (x * y).tolist()))
                self.assertTrue((x ** field.order == x).all())
                self.assertEqual((larger(field.zeros(1)).tolist(), larger(field.ones(1)).tolist()), ([0], [1]))
                if field in towers and larger in towers:
                    self.assertEqual(x.tolist(), a.tolist())

    def test_linear_maps(self):
        for field in (bf.Rijndael8b, bf.Ghash128):
            images, values = field.random(field.degree, seed=6), field.random((2, 9), seed=7)
            wanted = [definitions.linear_map(images.tolist(), it) for it in values.reshape(-1).tolist()]
            self.assertEqual(bf.linear_map(values, images).reshape(-1).tolist(), wanted)
            self.assertRaises(ValueError, bf.linear_map, values, images[:7])
        for values, images in ((bf.Poly64.random(1), bf.Poly64.random(64)), ([5], [5]), (bf.Ghash128(1), bf.Rijndael8b.random(8))):
            self.assertRaises(TypeError, bf.linear_map, values, images)

    def test_transforms(self):
        for m in (0, 1, 4, 6):
            a, shift = bf.Ghash128.random(1 << m, seed=m), bf.Ghash128.random(seed=8)
            values = bf.transform(a, shift)
            self.assertEqual(values.tolist(), definitions.transform(a.tolist(), int(shift)))
            self.assertTrue((bf.inverse_transform(values, shift) == a).all())
            points = bf.transform_points(1 << m, shift)
            self.assertEqual(points.tolist(), [int(shift) ^ definitions.linear_map(definitions.cantor_vectors(), p) for p in range(1 << m)])
        # The levels of the tower, which the array names.
        for field in (bf.BinaryField16, bf.BinaryField32, bf.BinaryField64, bf.BinaryField128):
            a, shift = field.random(1 << 5, seed=3), field.random(seed=4)
            values = bf.transform(a, shift)
            self.assertIs(type(values), field)
            self.assertEqual(values.tolist(), definitions.transform(a.tolist(), int(shift), definitions.FIELDS[field._name]))
            self.assertTrue((bf.inverse_transform(values, shift) == a).all())
            points = bf.transform_points(1 << 5, shift)
            self.assertEqual(points.tolist(), [int(shift) ^ definitions.linear_map(definitions.cantor.vectors(), p) for p in range(1 << 5)])
        self.assertRaises(ValueError, bf.transform, bf.BinaryField16.random(1 << 17, seed=1))
        # A long one, at three places.
        a = bf.Ghash128.random(1 << 10, seed=9)
        values = bf.transform(a)
        for place in (0, 77, 1023):
            self.assertEqual(int(values[place]), definitions.transform_value(a.tolist(), 0, place))
        a = bf.Ghash128.random(1 << 16, seed=10)
        self.assertTrue((bf.inverse_transform(bf.transform(a, 3), 3) == a).all())
        point = bf.transform_points(1, shift)
        point += 1
        self.assertEqual(point.tolist(), [int(shift) ^ 1])
        for count in (0, 3, -4, 2.0, "4", None):
            self.assertRaises(ValueError, bf.transform_points, count)
        for wrong in (bf.Ghash128.random(0), bf.Ghash128.random(3), bf.Ghash128.random((2, 3)), bf.Ghash128(1)):
            for function in (bf.transform, bf.inverse_transform):
                with self.assertRaisesRegex(ValueError, r"takes 2\*\*m elements along the last axis, m from 0 to 40, and not [03]$"):
                    function(wrong)

    def test_rows(self):
        for field in (bf.Ghash128, bf.BinaryField16, bf.BinaryField128):
            for a in (field.random((2, 3, 8), seed=22), field.random((8, 5), seed=23).T, field.random((0, 4)), field.random((3, 1), seed=24)):
                for function in (bf.transform, bf.inverse_transform):
                    for workers in (None, 1, 3):
                        found = function(a, 5, workers=workers)
                        self.assertEqual((type(found), found.shape), (field, a.shape))
                        self.assertEqual([it.tolist() for it in found.reshape(-1, a.shape[-1])] if a.size else [], [
                            function(it, 5).tolist() for it in a.reshape(-1, a.shape[-1])
                        ] if a.size else [])
                for function in (bf.from_powers, bf.to_powers):
                    rows = a.reshape(a.size // a.shape[-1], a.shape[-1])
                    self.assertEqual(function(a).reshape(*rows.shape).tolist(), [function(it).tolist() for it in rows])

    def test_powers(self):
        for m in range(8):
            c, shift = bf.Ghash128.random(1 << m, seed=m), bf.Ghash128.random(seed=17)
            self.assertTrue((bf.transform(bf.from_powers(c), shift) == bf.Ghash128.evaluate(c, bf.transform_points(1 << m, shift))).all())
            self.assertTrue((bf.to_powers(bf.from_powers(c)) == c).all() and (bf.from_powers(bf.to_powers(c)) == c).all())
        # Over every field: coefficient k is that of the product of the s_j over the set bits j of k.
        for field in FIELDS.values():
            c, x = field.random(64, seed=18), field.random(5, seed=19)
            value, factors = field.zeros(5), [x]
            for _ in range(5):
                factors.append(factors[-1].square() + factors[-1])
            for k in range(64):
                value += c[k] * field(np.stack([factors[j] for j in range(6) if k >> j & 1] + [field.ones(5)])).prod(0)
            self.assertTrue((field.evaluate(bf.to_powers(c), x) == value).all())
        for wrong in (bf.Ghash128.zeros(0), bf.Ghash128.zeros(3), bf.Ghash128.zeros((2, 3)), bf.Ghash128(1), [1, 2]):
            self.assertRaises(ValueError, bf.from_powers, wrong)
            self.assertRaises(ValueError, bf.to_powers, wrong)

    def test_stages(self):
        low, high, scalar = bf.Ghash128.random(9, seed=11), bf.Ghash128.random(9, seed=12), bf.Ghash128.random(seed=13)
        a, b = low.copy(), high.copy()
        bf.butterfly_forward(a, b, scalar)
        self.assertTrue((a == low + scalar * high).all() and (b == high + a).all())
        bf.butterfly_inverse(a, b, scalar)
        self.assertTrue((a == low).all() and (b == high).all())
        self.assertRaises(ValueError, bf.butterfly_forward, a, a, scalar)
        self.assertRaises(TypeError, bf.butterfly_forward, a, [1] * 9, scalar)
        # In the halves of one array, one after the other or by turns; halves that share an element are refused.
        for halves in ((slice(0, 9), slice(9, 18)), (slice(0, 18, 2), slice(1, 18, 2))):
            both = bf.Ghash128.zeros(18)
            both[halves[0]], both[halves[1]] = low, high
            bf.butterfly_forward(both[halves[0]], both[halves[1]], scalar)
            self.assertTrue((both[halves[0]] == low + scalar * high).all() and (both[halves[1]] == both[halves[0]] + high).all())
        self.assertRaises(ValueError, bf.butterfly_inverse, both[:9], both[8:17], scalar)
        values, shifts, basis = bf.Ghash128.random(32, seed=14), bf.Ghash128.random(4, seed=15), bf.Ghash128.random(6, seed=16)
        wanted = definitions.low_stages(values.tolist(), shifts.tolist(), basis.tolist(), 3)
        self.assertEqual(bf.low_stages(values, shifts, basis, 3).tolist(), wanted)
        self.assertRaises(ValueError, bf.low_stages, values, shifts, basis, 7)
        self.assertRaises(ValueError, bf.low_stages, values, shifts, basis, 1 << 64)


class Workers(unittest.TestCase):
    """Bulk calls by threads, which give the same."""

    def test_pieces(self):
        pieces = []
        for field, length, workers in itertools.product(FIELDS.values(), (0, 1, 7, 8, 9, 50, 128), (2, 3, 16)):
            a, b, s = field.random(length, seed=25), field.random(length, seed=26), field.random(seed=27)
            c = field.random(length, seed=28)
            bulk = [
                lambda **more: a.square(**more), lambda **more: a.sqrt(**more), lambda **more: a.inverse_or_zero(**more),
                lambda **more: a.scaled(s, **more), lambda **more: field.evaluate(c, a, **more), lambda **more: a[a != 0].reciprocal(**more),
                lambda **more: (added := b.copy()).add_scaled(s, a, **more) or added,
            ]
            if field in (bf.Rijndael8b, bf.Ghash128):
                images = field.random(field.degree, seed=29)
                bulk.append(lambda **more: bf.linear_map(a, images, **more))
            inside = [
                lambda: a * b, lambda: a + b, lambda: a**7, lambda: operator.imul(b.copy(), a), lambda: operator.imul(b.copy(), s),
                lambda: a.prod(),
            ]
            if field._partner:
                inside.append(lambda: a.to(FIELDS[field._partner]))
            wanted = [it().tolist() for it in bulk + inside]
            with mock.patch.object(bf._workers, "_PIECE", 1), mock.patch.object(bf._workers, "_pool", Counted(pieces)):
                found = [it(workers=workers).tolist() for it in bulk]
                with bf.set_workers(workers):
                    self.assertEqual((found + [it().tolist() for it in inside], [it().tolist() for it in bulk]), (wanted, wanted[: len(bulk)]))
        self.assertLessEqual({2, 3, 7}, set(pieces))

    def test_numbers_of_workers(self):
        count, seen = os.cpu_count(), []
        for given, wanted in ((3, 3), (-1, count), (-count, 1), (None, 1)):
            with bf.set_workers(given):
                self.assertEqual(bf.get_workers(), wanted)
                with bf.set_workers(2):
                    thread = threading.Thread(target=lambda: seen.append(bf.get_workers()))
                    thread.start()
                    thread.join()
                    self.assertEqual(bf.get_workers(), 2)
                self.assertEqual(bf.get_workers(), wanted)
        self.assertEqual((bf.get_workers(), seen), (1, [1] * 4))
        a = bf.Ghash128([1, 2])
        for error, given in ((ValueError, 0), (ValueError, -count - 1), (TypeError, 1.5), (TypeError, "2")):
            for call in (a.square, lambda workers: bf.transform(a, workers=workers), bf.set_workers):
                self.assertRaises(error, call, workers=given)
        self.assertEqual(bf.get_workers(), 1)

    def test_what_is_refused(self):
        words = np.arange(48, dtype=np.uint8)
        with mock.patch.object(bf._workers, "_PIECE", 1), bf.set_workers(4):
            for arrays in ((words[:16], words[16:32], words[12:28]), (words[:16], words[16:31], words[32:])):
                self.assertRaises(ValueError, bf._library.call, "t8_add", *arrays)
            self.assertRaises(ValueError, bf._library.call, "t4_add", *[np.full(16, 255, np.uint8) for _ in range(3)])
        self.assertEqual(words.tolist(), list(range(48)))

    def test_after_a_fork(self):
        a = bf.Ghash128.random(1 << 15, seed=30)
        wanted = a.square(workers=2).to_words().tobytes()
        with multiprocessing.get_context("fork").Pool(1) as pool:
            self.assertEqual(pool.apply(squared_by_two, [a]), wanted)


def squared_by_two(a):
    return a.square(workers=2).to_words().tobytes()


class Counted:
    """In the place of the pool: it calls one by one, and notes of how many items."""

    def __init__(self, noted):
        self.noted = noted

    def __call__(self, workers):
        return self

    def map(self, function, items):
        self.noted.append(len(items))
        return [function(it) for it in items]



class CorrectingCodes(unittest.TestCase):
    """Codes that correct errors."""

    def test_words_are_those_of_the_definitions(self):
        draw = random.Random(5)
        for n, k, c, step, field in ((255, 223, 112, 11, 0x187), (26, 16, 0, 1, 0x11D), (9, 4, 1, 3, 0x11B)):
            code, numbers = bf.CorrectingCode(n, k, c=c, root_step=step, field=field), (field, n, k, c, step)
            data = [[list(draw.randbytes(k)) for _ in range(3)] for _ in range(2)]
            words = code.encode(data)
            self.assertEqual(words.tolist(), [[definitions.code_word(numbers, it) for it in row] for row in data])
            self.assertEqual(code.encode(np.array(data), output="parity").tolist(), words[..., k:].tolist())
            self.assertFalse(code.detect(words).any())
            words[1, 2, 0] ^= 1
            self.assertEqual(code.detect(words).tolist(), [[False] * 3, [False, False, True]])
            self.assertEqual(code.syndromes(words)[1, 2].tolist(), definitions.code_syndromes(numbers, words[1, 2].tolist()))
            self.assertEqual(code.roots.tolist(), definitions.code_roots(*numbers))
            # A shortened word is one with zeros before it.
            short = code.encode(data[0][0][:3])
            self.assertEqual(code.encode([0] * (k - 3) + data[0][0][:3])[k - 3 :].tolist(), short.tolist())
            self.assertIs(code.detect(short), False)
            self.assertEqual(pickle.loads(pickle.dumps(code)).encode(data[0][0]).tolist(), words[0, 0].tolist())

    def test_words_are_corrected(self):
        draw = random.Random(6)
        for n, k, c, step, field in ((255, 223, 112, 11, 0x187), (26, 16, 0, 1, 0x11D), (9, 4, 1, 3, 0x11B)):
            code = bf.CorrectingCode(n, k, c=c, root_step=step, field=field)
            sent = code.encode([[list(draw.randbytes(k)) for _ in range(3)] for _ in range(2)])
            words, erased = sent.copy(), np.zeros(sent.shape, bool)
            for at in np.ndindex(2, 3):
                lost = draw.randrange(n - k + 1)
                places = draw.sample(range(n), lost + (n - k - lost) // 2)
                words[at][places] ^= draw.randrange(1, 256)
                erased[at][places[:lost]] = True
            read = words.tolist()
            data, changed = code.decode(words, errors=True, erasures=erased)
            self.assertEqual(data.tolist(), sent[..., :k].tolist())
            self.assertEqual(changed.tolist(), (words != sent).sum(axis=-1).tolist())
            self.assertEqual(code.decode(words, "codeword", erasures=erased).tolist(), sent.tolist())
            self.assertEqual(words.tolist(), read)
            short = code.encode([1, 2, 3])
            short[1] ^= 5
            self.assertEqual(code.decode(short).tolist(), [1, 2, 3])
            # One mask for all words.
            words = sent ^ (np.arange(n) < n - k).astype(np.uint8)
            self.assertEqual(code.decode(words, "codeword", erasures=np.arange(n) < n - k).tolist(), sent.tolist())

    def test_columns_are_words(self):
        draw = random.Random(7)
        for n, k, c, step, field in ((255, 223, 112, 11, 0x187), (26, 16, 0, 1, 0x11D), (9, 4, 1, 3, 0x11B)):
            code = bf.CorrectingCode(n, k, c=c, root_step=step, field=field)
            for shape in ((), (1,), (3, 2), (40,)):
                data = np.frombuffer(draw.randbytes(k * math.prod(shape)), np.uint8).reshape(k, *shape)
                turned = np.moveaxis(data, 0, -1)
                words = code.encode(data, axis=0)
                self.assertEqual(np.moveaxis(words, 0, -1).tolist(), code.encode(turned).tolist())
                self.assertEqual(code.encode(data, "parity", axis=0).tolist(), words[k:].tolist())
                self.assertFalse(np.any(code.detect(words, axis=0)))
                received = words.copy()
                for at in np.ndindex(shape):
                    for place in draw.sample(range(n), draw.randrange((n - k) // 2 + 2)):
                        received[(place, *at)] ^= draw.randrange(1, 256)
                plain = np.moveaxis(received, 0, -1)
                self.assertEqual(np.moveaxis(code.syndromes(received, axis=0), 0, -1).tolist(), code.syndromes(plain).tolist())
                self.assertEqual(np.asarray(code.detect(received, axis=0)).tolist(), np.asarray(code.detect(plain)).tolist())
                rows = np.arange(n) % 7 == 3
                for erased in (None, rows):
                    found, numbers = code.decode(received, "codeword", errors=True, erasures=erased, axis=0)
                    wanted, counts = code.decode(plain, "codeword", errors=True, erasures=erased)
                    self.assertEqual(np.moveaxis(found, 0, -1).tolist(), wanted.tolist())
                    self.assertEqual(np.asarray(numbers).tolist(), np.asarray(counts).tolist())
            self.assertRaises(ValueError, code.encode, data, axis=1)
            self.assertRaises(ValueError, code.encode, data[:0], axis=0)
            self.assertRaises(ValueError, code.decode, words, erasures=[True] * 2, axis=0)

    def test_matrices_are_those_of_the_code(self):
        for code in (bf.CorrectingCode(5, 3), bf.CorrectingCode(9, 4, c=7, root_step=3, field=0x11B)):
            field = bf.GF(2**8, irreducible_poly=code.field)
            self.assertFalse((field(code.G) @ field(code.H).T).any())
            self.assertEqual(code.roots.tolist(), [int(field(code.alpha) ** e) for e in range(code.c, code.c + code.n - code.k)])
            data = list(range(1, code.k + 1))
            self.assertEqual((field([data]) @ field(code.G)).tolist(), [code.encode(data).tolist()])
            word = list(range(code.n))
            self.assertEqual((field(code.H) @ field([word]).T)[:, 0].tolist(), code.syndromes(word).tolist())

    def test_words_near_to_none_stay(self):
        code, words = bf.CorrectingCode(3, 1, c=0), [[2, 6, 4], [2, 6, 5], [9, 8, 7]]
        data, changed = code.decode(words, errors=True)
        self.assertEqual((data.tolist(), changed.tolist()), ([[2], [2], [9]], [0, 1, -1]))
        self.assertEqual(code.decode(words, output="codeword").tolist(), [[2, 6, 4], [2, 6, 4], [9, 8, 7]])
        self.assertEqual(code.decode([9, 8, 7], "codeword", True, [True, True, False])[1], 2)
        self.assertEqual(code.decode([9, 8, 7], errors=True, erasures=[True] * 3)[1], -1)
        self.assertRaises(ValueError, code.decode, words, output="word")
        self.assertRaises(ValueError, code.decode, words, erasures=[True] * 2)

    def test_what_is_no_code_or_no_word_is_refused(self):
        for n, k in ((256, 9), (5, 5), (5, 0), (5, -1), (1 << 64, 3)):
            self.assertRaises(ValueError, bf.CorrectingCode, n, k)
        self.assertRaises(ValueError, bf.CorrectingCode, 5, 3, field=0x12C)
        self.assertRaises(ValueError, bf.CorrectingCode, 4, 2, root_step=85)
        self.assertRaises(ValueError, bf.CorrectingCode, 5)
        self.assertRaises(ValueError, bf.CorrectingCode, 5, 3, 3)
        self.assertEqual(bf.CorrectingCode(5, d=3).k, 3)
        code = bf.CorrectingCode(5, 3)
        for data in ([], [1, 2, 3, 4], [256], [-1], [0.5], 7):
            self.assertRaises(ValueError, code.encode, data)
        self.assertRaises(ValueError, code.encode, [1], output="word")
        for words in ([1, 2], [0] * 6):
            self.assertRaises(ValueError, code.detect, words)


class Secrets(unittest.TestCase):
    """Shares of secrets."""

    def test_wrong_shares_are_named(self):
        draw = random.Random(8)
        for field, count, needed in (("aes", 9, 3), ("gfshare", 4, 2), ("aes", 2, 2)):
            shares = bf.split_secret(b"some secret", count, needed, field=field)
            self.assertEqual(bf.correct_secret(shares, needed, field=field), (b"some secret", []))
            wrong = sorted(draw.sample(range(1, count + 1), (count - needed) // 2))
            given = [(it, bytes([1 ^ data[0]]) + data[1:] if it in wrong else data) for it, data in shares]
            draw.shuffle(given)
            secret, found = bf.correct_secret(given, needed, field=field)
            self.assertEqual((secret, sorted(found)), (b"some secret", wrong))
        one, other = (bf.split_secret(it, 4, 2) for it in (b"one secret", b"two secret"))
        self.assertRaisesRegex(ValueError, "more shares are wrong", bf.correct_secret, one[:2] + other[2:], 2)
        self.assertRaises(ValueError, bf.correct_secret, one[:1], 2)


class Bytes(unittest.TestCase):
    """Tags and codes."""

    def test_tags(self):
        draw = random.Random(48)
        for length in (0, 1, 16, 100, 1700):
            key, message = draw.randbytes(16), draw.randbytes(length)
            self.assertEqual(bf.ghash(key, message), definitions.ghash(key, message))
            self.assertEqual(bf.polyval(key, bytearray(message)), definitions.polyval(key, message))
            self.assertEqual(bf.gcm_ghash(key, message, np.frombuffer(key, np.uint8)), definitions.gcm_ghash(key, message, key))
            for piece in (1, 16, 30, 600):
                self.hash_in_pieces(key, message, piece)
        for a_hash in (bf.Ghash(key), bf.Polyval(key)):
            self.assertEqual((a_hash.digest_size, a_hash.block_size, a_hash.digest()), (16, 16, bytes(16)))
            self.assertRaises(TypeError, a_hash.update, "text")
            self.assertRaises(ValueError, type(a_hash), bytes(17))
        for wrong in (-1, 1 << 61, 1 << 70):
            self.assertRaises(ValueError, bf.Ghash(key).gcm_digest, wrong, 0)
            self.assertRaises(ValueError, bf.Ghash(key).gcm_digest, 0, wrong)
        self.assertTrue(bf.tags_are_equal(b"tag", b"tag"))
        self.assertFalse(bf.tags_are_equal(b"tag", b"tags"))
        for call in (bf.ghash, bf.polyval, lambda key, it: bf.gcm_ghash(key, it, it), bf.Ghash, bf.Polyval):
            with self.assertRaisesRegex(ValueError, "^a key has 16 bytes, and this one has 5$"):
                call(b"short", b"")
        self.assertRaises(TypeError, bf.ghash, "text", b"")

    def test_lines(self):
        for line, answer in definitions.worked_lines.rows():
            self.assertEqual(bf.answer(line), answer)
        self.assertEqual([bf.answer(it) for it in ("t8 mul 10 10", "t8 inv 00", "t9", bytearray(b"r8 mul 57 83"))], ["41", "none", "error 1", "c1"])
        for wrong in (None, 5, ["t8 mul 10 10"]):
            with self.assertRaises(TypeError):
                bf.answer(wrong)

    def hash_in_pieces(self, key, message, piece):
        """Hashes of a message in pieces, of its beginning by a copy, and of GCM."""
        for made, whole in ((bf.Ghash, bf.ghash), (bf.Polyval, bf.polyval)):
            a_hash, first = made(key), made(key, message[:piece])
            for at in range(0, len(message), piece):
                a_hash.update(message[at : at + piece])
            other = first.copy()
            other.update(b"another end")
            self.assertEqual(a_hash.digest(), whole(key, message))
            self.assertEqual(a_hash.digest(), whole(key, message))
            self.assertEqual(first.digest(), whole(key, message[:piece]))
            self.assertEqual(other.digest(), whole(key, message[:piece] + b"another end"))
        both = bf.Ghash(key, key[:3])
        both.pad()
        for at in range(0, len(message), piece):
            both.update(message[at : at + piece])
        self.assertEqual(both.gcm_digest(3, len(message)), bf.gcm_ghash(key, key[:3], message))

    def test_codes(self):
        code = bf.ReedSolomon(data=4, parity=2)
        content = random.Random(49).randbytes(36)
        data = np.frombuffer(content, np.uint8).reshape(4, 9)
        shards = code.encode(data)
        self.assertEqual(shards.tobytes(), definitions.encoded(4, 2, content))
        self.assertTrue(code.verify(shards))
        rows = [content[9 * it : 9 * it + 9] for it in range(4)]
        self.assertEqual(code.parity_of(rows).tobytes(), shards[4:].tobytes())
        out = [bytearray(9), bytearray(b"overwrite")]
        self.assertIs(code.parity_of([memoryview(it) for it in rows], out), out)
        self.assertEqual(b"".join(out), shards[4:].tobytes())
        for it in (2, 0, 3, 1):
            code.add_shard(it, 1, rows[it], out[1])
        self.assertEqual(out[1], bytes(9))
        for given, written in ((rows[:3], None), (rows[:3] + [b"short"], None), (rows, out[:1]), (rows, [bytes(9), bytes(9)]), ([b""] * 4, None)):
            self.assertRaises(ValueError, code.parity_of, given, written)
        self.assertRaises(ValueError, code.add_shard, 4, 0, rows[0], out[0])
        self.assertRaises(ValueError, code.add_shard, 0, 2, rows[0], out[0])
        damaged = [None if it in (0, 5) else row.tobytes() for it, row in enumerate(shards)]
        self.assertTrue((code.reconstruct(damaged) == shards).all())
        self.assertTrue((code.reconstruct_data(damaged) == data).all())
        wrong = shards.copy()
        wrong[2, 3] ^= 1
        self.assertFalse(code.verify(wrong))
        self.assertTrue((code.reconstruct(wrong, [True, True, False, True, True, True]) == shards).all())
        # A shard is missing where it is None, whatever the flags say, and where its flag is False.
        self.assertTrue((code.reconstruct(damaged, [True] * 6) == shards).all())
        self.assertTrue((code.reconstruct(damaged[:5] + [b"wrong byt"], [True] * 5 + [False]) == shards).all())
        self.assertTrue((code.reconstruct_data(damaged, np.ones(6, bool)) == data).all())
        self.assertRaises(ValueError, code.reconstruct, [None] * 3 + list(shards[3:]), [True] * 6)
        self.assertRaises(ValueError, code.reconstruct, damaged, [True] * 5)
        for given in ([None] * 6, [None] * 3 + damaged[1:4], damaged[:5], [b"ab", b"a", b"a", b"a", None, None]):
            self.assertRaises(ValueError, code.reconstruct, given)
        self.restore_apart(code, shards)
        self.restore_prepared(code, shards)
        self.assertRaises(ValueError, code.encode, np.zeros((3, 9), np.uint8))
        self.assertRaises(ValueError, code.encode, np.zeros((4, 0), np.uint8))
        for data, parity in ((0, 1), (1, 0), (200, 57), (-1, 3)):
            self.assertRaises(ValueError, bf.ReedSolomon, data=data, parity=parity)
        for data, parity in ((2.0, 3), (2, "3"), (None, 1)):
            self.assertRaises(TypeError, bf.ReedSolomon, data=data, parity=parity)
        # Two numbers alone could be those of all shards and of the data.
        self.assertRaises(TypeError, bf.ReedSolomon, 15, 9)
        self.assertRaises(TypeError, bf.TransformCode, 15, 9)
        # Elements of fields of bytes are bytes.
        rows = bf.Rijndael8b.from_words(shards)
        self.assertTrue((code.encode(rows[:4]) == shards).all() and code.verify(rows.T.copy().T))
        self.assertTrue((code.reconstruct([None, *rows[1:]]) == shards).all())
        self.assertRaises(TypeError, code.encode, bf.BinaryField16.zeros((4, 9)))

    def restore_prepared(self, code, shards):
        prepared = code.prepare_reconstruct([False, True, True, True, True, False])
        for stripe in (shards, code.encode(shards[:4] ^ 7)):
            damaged = [None if it in (0, 5) else row.tobytes() for it, row in enumerate(stripe)]
            self.assertTrue((prepared.reconstruct(damaged) == stripe).all())
            self.assertTrue((prepared.reconstruct([b"wrong byt", *damaged[1:]]) == stripe).all())
            self.assertTrue((prepared.reconstruct_data(damaged) == stripe[:4]).all())
            room = stripe.copy()
            room[0] = room[5] = 9
            prepared.reconstruct_in_place(room)
            self.assertTrue((room == stripe).all())
        for given in (damaged[:5], damaged + [None], [None, None, *damaged[2:]], [None] * 6):
            self.assertRaises(ValueError, prepared.reconstruct, given)
        for given in (list(shards), shards[:5], shards.astype(np.uint16)):
            self.assertRaises(ValueError, prepared.reconstruct_in_place, given)
        for flags in ([True] * 5, [False] * 3 + [True] * 3):
            self.assertRaises(ValueError, code.prepare_reconstruct, flags)

    def restore_apart(self, code, shards):
        """Shards that lie apart: restored where they lie, or left out."""
        kept = [it.tobytes() for it in shards]
        lost = [bytearray(b"overwrite"), np.full(9, 7, np.uint8)]
        present = [False, True, True, True, True, False]
        code.reconstruct_in_place([lost[0], *kept[1:5], lost[1]], present)
        self.assertEqual([bytes(it) for it in lost], [kept[0], kept[5]])
        only = bytearray(9)
        code.reconstruct_in_place([only, *kept[1:5], None], present)
        self.assertEqual(bytes(only), kept[0])
        code.reconstruct_in_place(kept, [True] * 6)
        few = [bytearray(b"overwrite") for _ in range(3)] + kept[3:]
        self.assertRaises(ValueError, code.reconstruct_in_place, few, [False] * 3 + [True] * 3)
        self.assertEqual(bytes(few[0]), b"overwrite")
        for given, flags in (
            (kept, present), (kept[:5], present), ([lost[0][:8], *kept[1:5], None], present), ([lost[0], None, *kept[2:5], None], present),
            ([lost[0], *kept[1:5], None], present[:5]), ([bytearray()] + [b""] * 5, present),
        ):
            self.assertRaises(ValueError, code.reconstruct_in_place, given, flags)

    def test_transform_codes(self):
        code = bf.TransformCode(data=5, parity=3)
        words = np.frombuffer(random.Random(50).randbytes(5 * 14), "<u2").reshape(5, 7)
        data = words.view(np.uint8)
        shards = code.encode(data)
        self.assertEqual(shards[:5].tobytes(), data.tobytes())
        self.assertEqual(shards[5:].view("<u2").ravel().tolist(), definitions.transform_parity(5, 3, words.ravel().tolist()))
        self.assertEqual((code.data, code.parity, repr(code)), (5, 3, "TransformCode(data=5, parity=3)"))
        self.assertTrue(code.verify(shards) and code.verify([it.tobytes() for it in shards]))
        damaged = [None if it in (0, 4, 6) else row.tobytes() for it, row in enumerate(shards)]
        self.assertTrue((code.reconstruct(damaged) == shards).all())
        wrong = shards.copy()
        wrong[2, 3] ^= 1
        self.assertFalse(code.verify(wrong))
        self.assertTrue((code.reconstruct(wrong, [it != 2 for it in range(8)]) == shards).all())
        # Shards need not lie at even addresses.
        self.assertTrue((code.encode(np.frombuffer(b"x" + data.tobytes(), np.uint8)[1:].reshape(5, 14)) == shards).all())
        for given in ([None] * 8, [None] * 4 + damaged[4:], damaged[:5], [b"abc"] * 8):
            self.assertRaises(ValueError, code.reconstruct, given)
        for given in (np.zeros((4, 8), np.uint8), np.zeros((5, 0), np.uint8), np.zeros((5, 3), np.uint8)):
            self.assertRaises(ValueError, code.encode, given)
        for counts in ((0, 1), (1, 0), (-1, 3), (32769, 1), (1, 65536), (1 << 64, 1)):
            self.assertRaises(ValueError, bf.TransformCode, data=counts[0], parity=counts[1])
        self.assertRaises(TypeError, bf.TransformCode, data=2.0, parity=3)
        many = bf.TransformCode(data=3000, parity=1000)
        shards = many.encode(np.frombuffer(random.Random(51).randbytes(6000), np.uint8).reshape(3000, 2))
        self.assertTrue((many.reconstruct([None] * 1000 + list(shards[1000:])) == shards).all())


class Processor(unittest.TestCase):
    """Which form of the library is called."""

    # What a processor has, as Linux names it, that runs the form for x86-64-v3.
    FLAGS = {"abm", "avx2", "bmi1", "bmi2", "f16c", "fma", "movbe"}

    def named(self, asked):
        """What a process says that has this in its environment, and nothing where it is None."""
        environment = {name: it for name, it in os.environ.items() if name != "BINARY_FIELD_PROCESSOR"}
        if asked is not None:
            environment["BINARY_FIELD_PROCESSOR"] = asked
        command = [sys.executable, "-B", "-c", "import binary_field; print(binary_field.processor())"]
        return subprocess.run(command, env=environment, capture_output=True, text=True, check=True).stdout.strip()

    def test_the_environment_lowers_it_and_never_raises_it(self):
        own = self.named(None)
        self.assertEqual([self.named(it) for it in ("x86-64-v3", "x86-64-v4", "aarch64", "")], [own] * 4)
        self.assertEqual(bf.processor(), self.named(os.environ.get("BINARY_FIELD_PROCESSOR")))
        maps = pathlib.Path("/proc/self/maps").read_text(encoding="utf-8").splitlines()
        library = next(it.split(maxsplit=5)[5] for it in maps if "libbinary_field.so" in it)
        # The names of the forms that it has.
        names = [it for it in ("aarch64", "x86-64-v2", "x86-64-v3") if it.encode() in pathlib.Path(library).read_bytes()]
        if len(names) == 1:
            self.assertEqual([own, self.named("x86-64-v2")], names * 2)
        else:
            processors = pathlib.Path("/proc/cpuinfo").read_text(encoding="utf-8").splitlines()
            flags = next(it for it in processors if it.startswith("flags"))
            self.assertEqual(names, ["x86-64-v2", "x86-64-v3"])
            self.assertEqual((own, self.named("x86-64-v2")), (names[self.FLAGS <= set(flags.split())], "x86-64-v2"))


if __name__ == "__main__":
    unittest.main()
