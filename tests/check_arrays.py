"""Tests of the Python package as an array library: check_arrays.py, with the package as check_package.py has it.

numpy itself is the reference. What a call gives for arrays of elements is compared with what it gives for numpy's arrays of objects, of
which each computes in the field by the definitions: the numbers, the shape, or the exception.
"""

import concurrent.futures
import copy
import doctest
import io
import operator
import pickle
import random
import tempfile
import tracemalloc
import unittest
import warnings

import definitions
import numpy as np

import binary_field as bf

FIELDS = {it.name: getattr(bf, it.type_name) for it in definitions.fields.FIELDS}
# The widths of one, a few and many bytes, and of words in structures.
SOME = [bf.Gf2, bf.BinaryField4, bf.BinaryField16, bf.Poly64, bf.Ghash128, bf.Poly192]


class Plain:
    """An element as a number that computes by the definitions; 0 and 1 are also taken beside it."""

    def __init__(self, field, number):
        self.field, self.number = field, number

    def _of(self, other, operation, swapped=False):
        if isinstance(other, (int, np.bool_)) and other in (0, 1):
            other = Plain(self.field, int(other))
        if not isinstance(other, Plain):
            return NotImplemented
        both = (other.number, self.number) if swapped else (self.number, other.number)
        return Plain(self.field, operation(*both))

    def _quotient(self, x, y):
        if y == 0:
            raise ZeroDivisionError
        return self.field.multiply(x, self.field.inverse(y))

    def __add__(self, other):
        return self._of(other, operator.xor)

    __radd__ = __sub__ = __rsub__ = __add__

    def __mul__(self, other):
        return self._of(other, self.field.multiply)

    __rmul__ = __mul__

    def __truediv__(self, other):
        return self._of(other, self._quotient)

    def __rtruediv__(self, other):
        return self._of(other, self._quotient, True)

    def __pow__(self, exponent):
        base = self.number if exponent >= 0 else self._quotient(1, self.number)
        return Plain(self.field, self.field.power(base, abs(exponent)))

    def __neg__(self):
        return self

    __pos__ = __neg__

    def conjugate(self):
        return self

    def sqrt(self):
        return Plain(self.field, self.field.square_root(self.number))

    def __bool__(self):
        return self.number != 0

    def __eq__(self, other):
        return self.number == (other.number if isinstance(other, Plain) else other)

    def __int__(self):
        return self.number


class World:
    """Arrays in one of the two ways: of a field, or of objects of its definition."""

    def __init__(self, field, is_plain):
        self.field, self.defined = field, definitions.FIELDS[field._name]
        draw = np.random.default_rng(50)
        numbers = [int.from_bytes(draw.bytes(24), "little") % field.order for _ in range(40)]
        numbers[3] = numbers[17] = 0
        self.make = self.objects if is_plain else field
        # A cube, a matrix, vectors of which one has no 0, and a mask.
        self.m, self.n = self.make(numbers[:24]).reshape(2, 3, 4), self.make(numbers[24:36]).reshape(4, 3)
        self.v, self.w = self.make(numbers[:5]), self.make([it or 1 for it in numbers[5:8]])
        self.mask = np.arange(24).reshape(2, 3, 4) % 3 == 0

    def objects(self, numbers):
        flat = np.empty(np.size(np.array(numbers, dtype=object)), dtype=object)
        for at, it in enumerate(np.array(numbers, dtype=object).ravel()):
            flat[at] = Plain(self.defined, int(it))
        return flat.reshape(np.shape(np.array(numbers, dtype=object)))


def read(value):
    """The numbers and the shape of what a call gave."""
    if isinstance(value, (list, tuple)):
        return [read(it) for it in value]
    if isinstance(value, bf.FieldArray):
        return value.shape, value.ravel().tolist()
    if isinstance(value, np.ndarray) and value.dtype != object:
        return value.shape, value.ravel().tolist()
    return np.shape(value), [int(it) for it in np.ravel(np.array(value, dtype=object))]


SHAPES = [
    lambda o: o.m.T, lambda o: o.m.transpose(1, 0, 2), lambda o: o.m.transpose((2, 0, 1)), lambda o: o.m.transpose(0, 0, 1), lambda o: o.v.T,
    lambda o: o.m.swapaxes(0, -1), lambda o: o.m.swapaxes(0, 3), lambda o: o.m.ravel(), lambda o: o.m.T.ravel(), lambda o: o.m.T.flatten(),
    lambda o: o.m.reshape(4, 6), lambda o: o.m.reshape((-1, 3)), lambda o: o.m.reshape(5, 5), lambda o: o.m.T.reshape(-1), lambda o: o.m.diagonal(),
    lambda o: o.m.diagonal(1, 1, 2), lambda o: list(o.m), lambda o: [it for row in o.n for it in row], lambda o: list(o.v[0, ...]), lambda o: o.m[5],
    lambda o: o.m[None, ..., 0], lambda o: o.m[o.mask], lambda o: o.m[[0, 1], [1, 2]], lambda o: o.m[:, ::-1, 1], lambda o: o.m[0, 0, 0, 0],
    lambda o: o.m["words"], lambda o: o.m[0.5], lambda o: o.v[-1], lambda o: len(o.m), lambda o: len(o.v[0, ...]), lambda o: np.nonzero(o.m),
    lambda o: np.transpose(o.m), lambda o: np.moveaxis(o.m, 0, -1), lambda o: np.swapaxes(o.m, 0, 1), lambda o: np.ravel(o.m),
    lambda o: np.squeeze(o.m[:1]), lambda o: np.squeeze(o.m, 0), lambda o: np.expand_dims(o.m, 1), lambda o: np.reshape(o.m, (6, 4)),
    lambda o: np.broadcast_to(o.v, (2, 5)), lambda o: np.broadcast_to(o.v, (2, 4)), lambda o: np.broadcast_arrays(o.v, o.v[:1]),
    lambda o: np.concatenate([o.m, o.m[:1]]), lambda o: np.concatenate([o.m, o.n], 1), lambda o: np.concatenate([o.m, o.m], axis=None),
    lambda o: np.stack([o.v, o.v], axis=1), lambda o: np.stack([o.v, o.w]), lambda o: np.vstack((o.v, o.v)), lambda o: np.hstack([o.v, o.w]),
    lambda o: np.dstack([o.v, o.v]), lambda o: np.column_stack([o.v, o.v]), lambda o: np.split(o.m, 2), lambda o: np.split(o.v, 2),
    lambda o: np.array_split(o.v, 2), lambda o: np.tile(o.v, (2, 2)), lambda o: np.repeat(o.v, 2), lambda o: np.repeat(o.m, [1, 2], axis=0),
    lambda o: np.roll(o.m, 3), lambda o: np.roll(o.m, 1, axis=2), lambda o: np.roll(o.m, 1, axis=4), lambda o: np.flip(o.m),
    lambda o: np.flip(o.m, 1), lambda o: np.fliplr(o.n), lambda o: np.rot90(o.n), lambda o: np.take(o.m, [1, 0], axis=2), lambda o: np.take(o.v, 9),
    lambda o: np.take(o.v, 2), lambda o: np.delete(o.v, 1), lambda o: np.compress([True, False, True], o.v), lambda o: np.diag(o.v),
    lambda o: np.diag(o.n), lambda o: np.diag(o.n, -1), lambda o: np.diag(o.m), lambda o: np.diagflat(o.n), lambda o: np.tril(o.n),
    lambda o: np.triu(o.n, 1), lambda o: np.atleast_3d(o.v), lambda o: np.copy(o.m), lambda o: np.where(o.mask, o.m, o.m[::-1]),
    lambda o: np.where(o.mask, o.m, 0), lambda o: np.where(o.mask, 1, o.m[0]), lambda o: np.where(o.mask, o.v, o.m), lambda o: np.where(o.v),
    lambda o: bool(np.any(o.v)), lambda o: np.asarray(np.all(o.m, axis=1), bool), lambda o: np.count_nonzero(o.m), lambda o: np.argwhere(o.m),
    lambda o: np.flatnonzero(o.v), lambda o: np.shape(o.m), lambda o: np.ndim(o.m), lambda o: np.size(o.m), lambda o: np.size(o.m, 1),
    lambda o: np.append(o.v, o.w), lambda o: np.append(o.n, o.n, axis=0), lambda o: np.append(o.n, o.w, axis=0),
    lambda o: np.block([[o.n, o.n], [o.n, o.n]]), lambda o: np.block([o.v, o.w]), lambda o: np.extract([True, False, True], o.v),
    lambda o: np.resize(o.n, (3, 7)), lambda o: np.meshgrid(o.v, o.w), lambda o: np.lib.stride_tricks.sliding_window_view(o.v, 2),
    lambda o: o.v.take([2, 0]), lambda o: o.m.take([1], axis=2), lambda o: o.v.take(2), lambda o: o.v.take(9), lambda o: o.v.repeat(3),
    lambda o: o.m.repeat([2, 1], axis=0), lambda o: o.m.repeat([2, 1], axis=1), lambda o: o.v.compress([True, False, True]),
    lambda o: o.m.compress([False, True], axis=1), lambda o: o.m.nonzero(), lambda o: list(o.m.flat), lambda o: o.v.item(1), lambda o: o.m.item(1, 2, 3),
    lambda o: o.m.item(7), lambda o: o.v[1:2].item(), lambda o: o.v.item(), lambda o: o.m.item((0, 1, 2)), lambda o: o.v.item(9),
    lambda o: copy.copy(o.v), lambda o: copy.deepcopy(o.v), lambda o: bool(o.v[0]), lambda o: bool(o.v),
]

AXES = [
    lambda o: o.m.sum(), lambda o: o.m.sum(1), lambda o: o.m.sum((0, 2)), lambda o: o.m.sum(axis=-1, keepdims=True), lambda o: o.m.sum(3),
    lambda o: np.sum(o.m, (1, 1)), lambda o: np.sum(o.m), lambda o: np.sum(o.m, axis=0), lambda o: np.sum(o.m, keepdims=True),
    lambda o: np.sum(o.m, axis=1, initial=o.v[0]), lambda o: np.sum(o.m, axis=1, initial=o.v[0], where=o.mask),
    lambda o: np.sum(o.m, where=o.mask, initial=0), lambda o: o.m.prod(), lambda o: o.m.prod(1), lambda o: o.m.prod((0, 2)),
    lambda o: np.prod(o.m, axis=2, keepdims=True), lambda o: np.prod(o.m, axis=(-1, 0), keepdims=True), lambda o: np.prod(o.m, axis=3),
    lambda o: np.prod(o.m, axis=1, initial=o.v[0], where=~o.mask), lambda o: np.prod(o.v[0, ...]), lambda o: np.cumsum(o.m),
    lambda o: np.cumsum(o.m, 1), lambda o: np.cumsum(o.m, axis=3), lambda o: o.m.cumsum(axis=-1), lambda o: np.cumprod(o.m),
    lambda o: np.cumprod(o.m, axis=1), lambda o: o.n.cumprod(0), lambda o: np.add.reduce(o.m), lambda o: np.add.reduce(o.m, axis=None),
    lambda o: np.add.reduce(o.m, 1, keepdims=True), lambda o: np.add.reduce(o.n, axis=2), lambda o: np.multiply.reduce(o.m),
    lambda o: np.multiply.reduce(o.m, axis=(0, 1)), lambda o: np.add.accumulate(o.m), lambda o: np.multiply.accumulate(o.m, axis=2),
    lambda o: np.add.outer(o.v, o.w), lambda o: np.multiply.outer(o.n, o.w), lambda o: np.divide.outer(o.v, o.w), lambda o: np.equal.outer(o.v, o.v),
    lambda o: np.outer(o.v, o.w), lambda o: np.outer(o.n, o.w), lambda o: np.trace(o.n), lambda o: np.trace(o.m, 1, 1, 2), lambda o: np.trace(o.v),
    lambda o: o.m.trace(), lambda o: np.convolve(o.v, o.w), lambda o: np.convolve(o.w, o.v, "same"), lambda o: np.convolve(o.v, o.w[:2], "same"),
    lambda o: np.convolve(o.v, o.w, "valid"),
    lambda o: np.convolve(o.v, o.w[:0]), lambda o: np.convolve(o.v[0, ...], o.w), lambda o: np.convolve(o.n, o.w), lambda o: np.dot(o.v, o.v),
    lambda o: np.dot(o.m, o.n), lambda o: np.dot(o.n, o.m), lambda o: np.dot(o.m, o.m.T), lambda o: np.dot(o.m, o.w), lambda o: np.dot(o.n, o.w),
    lambda o: np.dot(o.w, o.w[0]), lambda o: o.m @ o.n, lambda o: o.n @ o.m[0], lambda o: o.n @ o.m, lambda o: o.m @ o.m, lambda o: o.w @ o.m,
    lambda o: o.n @ o.w, lambda o: o.v @ o.v, lambda o: o.v @ o.w, lambda o: o.m @ o.v[0], lambda o: np.matmul(o.n, o.w),
    lambda o: o.m[:, None] @ o.n, lambda o: o.n @ [0, 1, 1], lambda o: [0, 1, 1] @ o.n.T, lambda o: np.array([0, 1, 1]) @ o.w,
    lambda o: o.v[:0] + o.v[:0], lambda o: np.inner(o.v, o.v), lambda o: np.inner(o.m, o.m[0]), lambda o: np.inner(o.v, o.w),
    lambda o: np.inner(o.n, o.w[0]), lambda o: np.vdot(o.n, o.m[0]), lambda o: np.vdot(o.v, o.w), lambda o: np.kron(o.n, o.w), lambda o: np.kron(o.w, o.n),
    lambda o: np.kron(o.n, o.n.T), lambda o: np.tensordot(o.m, o.n, 1), lambda o: np.tensordot(o.m, o.m), lambda o: np.tensordot(o.m, o.n, ([1, 2], [1, 0])),
    lambda o: np.tensordot(o.n, o.m, (0, -1)), lambda o: np.tensordot(o.v, o.w, 0), lambda o: np.tensordot(o.n, o.m, 1), lambda o: np.tensordot(o.n, o.m, (0, 3)),
    lambda o: np.vander(o.v), lambda o: np.vander(o.v, 3), lambda o: np.vander(o.v, 4, increasing=True), lambda o: np.vander(o.v, 0),
    lambda o: np.vander(o.n), lambda o: np.diff(o.v), lambda o: np.diff(o.m, 2, axis=1), lambda o: np.diff(o.m, axis=3), lambda o: np.diff(o.v, 0),
    lambda o: np.diff(o.v, -1), lambda o: np.diff(o.v, 7), lambda o: np.polyval(o.v, o.w), lambda o: np.polyval(o.v, o.v[2]),
]

PLACES = [
    lambda o: o.v + o.v, lambda o: o.m - o.m[::-1], lambda o: o.m * o.m[0], lambda o: o.n * o.w, lambda o: o.w / o.w[0], lambda o: o.n / o.w,
    lambda o: o.v / o.v, lambda o: o.v + o.w, lambda o: 1 / o.w, lambda o: 0 + o.v, lambda o: o.v * np.array([0, 1, 1, 0, 1]),
    lambda o: o.v * np.array([True, False, True, False, True]), lambda o: o.w + [1, 0, 1], lambda o: (0, 1, 1) * o.w, lambda o: o.m.T * o.m.T,
    lambda o: o.m[:, ::2] + o.m[:, ::-2], lambda o: o.v**3, lambda o: np.power(o.v, 2), lambda o: np.sqrt(o.m.T), lambda o: np.square(o.n[::2]),
    lambda o: np.reciprocal(o.w) if isinstance(o.w, bf.FieldArray) else 1 / o.w, lambda o: -o.n[1:], lambda o: o.v == o.v[::-1],
    lambda o: o.m == o.m[0], lambda o: o.m != o.m.T, lambda o: o.v == None, lambda o: o.v == 300, lambda o: o.v != 1, lambda o: o.v == "1",
    lambda o: o.v == [1, 0, 1, 0, 1], lambda o: o.v == o.w,
    lambda o: o.v[0] in o.v, lambda o: o.m[1, 2, 3] in o.m, lambda o: 300 in o.m, lambda o: o.m[0] in o.m, lambda o: None in o.v,
    lambda o: o.v[0] == None, lambda o: np.add(o.v, o.v, where=[True] * 5),
    lambda o: np.equal(o.v, o.v), lambda o: np.not_equal(o.v, 0), lambda o: o.v ** np.array([0, 1, 2, 3, 300]),
    lambda o: o.n ** np.array([1, 2, 3]), lambda o: np.power(o.w, np.array([[1], [2]])), lambda o: o.v ** np.array([1, 2]),
    lambda o: o.v ** np.array([1 << 70, 5, 0, 1, 2], dtype=object),
]


def changed(function):
    """A case that changes a matrix, and what it leaves of it."""

    def case(o):
        n = o.n.copy()
        given = function(o, n)
        return [n] + ([] if given is None else [given])

    return case


CHANGES = [changed(it) for it in [
    lambda o, n: operator.iadd(n, o.w), lambda o, n: operator.iadd(n, n), lambda o, n: operator.imul(n, n.copy()),
    lambda o, n: operator.imul(n, o.w[0]), lambda o, n: operator.iadd(n.T, o.w[:, None]), lambda o, n: operator.iadd(n[::2], 1),
    lambda o, n: operator.iadd(n[1:], n[:-1]), lambda o, n: operator.imul(n[:, 1], o.n[:, 0]), lambda o, n: operator.itruediv(n, o.w),
    lambda o, n: operator.ipow(n[0], 3), lambda o, n: operator.isub(n[0], n), lambda o, n: operator.itruediv(n, o.w * 0),
    lambda o, n: np.add(n, o.w, out=n), lambda o, n: np.add(o.n, o.w, out=n.T.copy().T), lambda o, n: np.multiply(o.w, o.w[::-1], out=n[1]),
    lambda o, n: np.multiply(o.w, o.w, out=n), lambda o, n: np.multiply(o.n, o.n, out=n[:2]), lambda o, n: np.multiply(o.w[0], o.w[1], out=n),
    lambda o, n: np.add(n, 1, out=n, where=o.mask[0].T), lambda o, n: np.divide(o.n, n, out=n, where=n != 0),
    lambda o, n: np.divide(o.n, n, out=n, where=[True]), lambda o, n: np.square(o.w, out=n[0]), lambda o, n: np.negative(o.w, out=n[0]),
    lambda o, n: np.power(o.w, 3, out=n[0]), lambda o, n: np.sum(o.n, axis=0, out=n[0]), lambda o, n: np.sum(o.n, axis=1, out=n[0]),
    lambda o, n: np.prod(o.n, 0, out=n[1]), lambda o, n: np.add.reduce(n, axis=0, out=n[0]), lambda o, n: np.cumsum(o.n, axis=1, out=n),
    lambda o, n: np.multiply.accumulate(o.n, 1, out=n), lambda o, n: np.matmul(o.n, o.m[0, :, :3], out=n),
    lambda o, n: np.dot(o.n, o.m[0, :, :3].copy(), out=n), lambda o, n: np.multiply.outer(o.m[0, 0], o.w, out=n),
    lambda o, n: np.add.at(n, [0, 0, 1], o.w), lambda o, n: np.multiply.at(n, ([0, 0, 2, 0], [1, 1, 0, 1]), o.m[0, 0]),
    lambda o, n: np.divide.at(n, [3, 3], o.w),
    lambda o, n: np.square.at(n, [1, 1, 2]) if isinstance(n, bf.FieldArray) else n.__setitem__([1, 2], [n[1]**4, n[2]**2]),
    lambda o, n: np.add.at(n, [5], 1), lambda o, n: n.__setitem__(0, o.w), lambda o, n: n.__setitem__((slice(None), 1), o.m[0, 0]),
    lambda o, n: n[0].__setitem__(0, o.w[1]), lambda o, n: n.__setitem__(0, o.v), lambda o, n: n.__setitem__(n == n[0], 1),
    lambda o, n: n.__setitem__(9, 1), lambda o, n: n.reshape(-1).__setitem__(2, o.w[0]), lambda o, n: n.flatten().__setitem__(2, o.w[0]),
    lambda o, n: n.ravel().__setitem__(2, o.w[0]), lambda o, n: n.T.ravel().__setitem__(2, o.w[0]), lambda o, n: n[[0, 1]].__setitem__(0, o.w),
    lambda o, n: n[n != 0].__setitem__(0, o.w[0]), lambda o, n: n.swapaxes(0, 1)[0].__setitem__(0, o.w[0]),
    lambda o, n: np.copyto(n, o.w), lambda o, n: np.copyto(n, o.n[::-1], where=o.mask[0].T), lambda o, n: np.copyto(n, o.v),
    lambda o, n: np.fill_diagonal(n, o.w[0]), lambda o, n: np.fill_diagonal(n, o.w), lambda o, n: np.fill_diagonal(n, 1, wrap=True),
    lambda o, n: n.fill(o.w[1]), lambda o, n: n.T[0].fill(1), lambda o, n: np.full_like(n, o.w[1]), lambda o, n: operator.ipow(n, np.array([1, 2, 3])),
    lambda o, n: n.diagonal().__setitem__(0, o.w[0]), lambda o, n: np.broadcast_to(n, (2, 4, 3)).__setitem__(0, n),
]]


def swap(a, first, second):
    a[first], a[second] = a[second], a[first]


def turn(a):
    a[0], a[1], a[2] = a[1], a[2], a[0]


class AsNumpy(unittest.TestCase):
    """Each case over elements and over objects: the same numbers and shape, or an exception of the same class."""

    def compare(self, cases):
        for field in SOME:
            ours, plain = World(field, False), World(field, True)
            for at, case in enumerate(cases):
                with self.subTest(field=field.__name__, case=at), warnings.catch_warnings():
                    warnings.simplefilter("ignore", DeprecationWarning)
                    try:
                        wanted = read(case(plain))
                    except Exception as error:  # pylint: disable=broad-except
                        self.assertRaises(type(error), case, ours)
                        continue
                    self.assertEqual(read(case(ours)), wanted)

    def test_shapes(self):
        self.compare(SHAPES)

    def test_axes(self):
        self.compare(AXES)

    def test_places(self):
        self.compare(PLACES)

    def test_changes(self):
        self.compare(CHANGES)


class Elements(unittest.TestCase):
    """What objects of numpy cannot be compared with."""

    def test_lists_of_elements(self):
        for field in FIELDS.values():
            x, y = field.random(2, seed=51)
            for wanted, found in [
                (x + y, np.sum([x, y])), (x * y, np.prod([x, y])), (x * y, np.dot([x], [y])), (x * y, np.multiply([x], y)), (x + y, np.add(x, [y])),
                (x.sqrt(), np.sqrt(np.array(x))), (x + y, np.array([x, y]).sum()), (x + y, np.cumsum([x, y])[1]),
                (x * x + y * y, [x, y] @ field(np.stack([x, y]))),
            ]:
                self.assertIsInstance(found if isinstance(found, field) else found.ravel()[0], field)
                self.assertTrue(np.all(found == wanted))
            for refused in (np.mean, np.max, np.sort, np.exp, np.linalg.det, np.fft.fft, np.std):
                self.assertRaises(TypeError, refused, [x, y] if refused is not np.linalg.det else [[x]])
            self.assertTrue((field([x, y]) == field(np.array([x, y]))).all() and (field([[x], [y]]) == field([x.reshape(1), y.reshape(1)])).all())
            self.assertEqual((np.asarray(x, dtype=object)[()], field([x, y]).tolist()), (x, [int(x), int(y)]))

    def test_numbers_of_numpy(self):
        for field in FIELDS.values():
            a = field.random((2, 3), seed=52)
            if field.degree <= 64:
                self.assertEqual(np.asarray(a, dtype=np.uint64).tolist(), a.tolist())
            self.assertEqual([int(it) for it in np.asarray(a).ravel()], a.ravel().tolist())
            for kind in (np.uint8, np.int64, np.uint64, bool):
                self.assertEqual(field(np.array([[0], [1]], kind)).tolist(), [[0], [1]])
            self.assertEqual(field(np.zeros((2, 0), np.int8)).shape, (2, 0))
        self.assertEqual(bf.Ghash128(np.array([5, (1 << 64) - 1], np.uint64)).tolist(), [5, (1 << 64) - 1])
        self.assertRaises(ValueError, bf.Ghash128, np.array([-1]))
        self.assertRaises(TypeError, bf.Ghash128, np.array([1.0]))
        self.assertRaises(OverflowError, np.asarray, bf.Ghash128(1 << 64), np.uint64)

    def test_memory(self):
        for field in FIELDS.values():
            a = field.random((4, 5), seed=53)
            words = a.to_words()
            self.assertEqual((a.dtype.itemsize * a.size, a.dtype), (a.nbytes, a[0].T.dtype))
            for it in (a[1:], a[:, 2], a.T, a.reshape(-1), a.ravel(), a[0][1:], a.diagonal(), a[1, 2, ...], a.to(field), np.roll(a, 0)[:0], *a):
                self.assertEqual(np.shares_memory(it, a), it.size > 0)
            for it in (a[1, 2], a[[1]], a[a == a], a.copy(), a.flatten(), +a, field(a), copy.copy(a), next(iter(a[0])), np.roll(a, 1)):
                self.assertFalse(np.shares_memory(it, a))
            # Words in the same memory: those of an array, and of an array those that it was made of.
            a.to_words(copy=False)[0, 0] = a.to_words()[3, 3]
            self.assertEqual(int(a[0, 0]), int(a[3, 3]))
            b = field.from_words(words, copy=False)
            b[0, 0] = b[1, 1]
            self.assertTrue((words[0, 0] == words[1, 1]).all() and (b.to_words() == words).all())
            self.assertFalse(np.shares_memory(field.from_words(words), words))
            # Elements that are not where the processor wants them, and not one after the other.
            data = np.zeros(words.nbytes + 1, np.uint8)
            odd = np.frombuffer(data.data, words.dtype, words.size, 1).reshape(words.shape)
            odd[...] = words
            c = field.from_words(odd, copy=False)
            self.assertTrue((c * c == b * b).all() and (c[::2, ::-3] * c[::2, ::3] == b[::2, ::-3] * b[::2, ::3]).all())
            c += b
            self.assertEqual(odd.tobytes(), bytes(words.nbytes))
            words.flags.writeable = False
            self.assertRaises(ValueError, operator.iadd, field.from_words(words, copy=False), 1)
            self.assertRaises(ValueError, field.from_words(words, copy=False).add_scaled, 1, b)

    def test_no_memory_beside(self):
        for field in FIELDS.values():
            a, b = field.random(1 << 16, seed=57), field.random(1 << 16, seed=58)
            c, wanted, scalar = a.copy(), ((a + b) * b * a[5]).square(), a[5]
            tracemalloc.start()
            a += b
            a *= b
            a *= scalar
            np.square(a, out=c)
            row = c[1:].reshape(5, -1).T[2:]
            taken = tracemalloc.get_traced_memory()[1]
            tracemalloc.stop()
            self.assertLess(taken, 1 << 15)
            self.assertTrue((c == wanted).all() and (row[0] == wanted[3::13107]).all())

    def test_single_elements(self):
        # They go by rooms of their own, of which each thread has to have another.
        for field in FIELDS.values():
            a, b = field.random(200, seed=59), field.random(200, seed=60)
            wanted = (a * b + a.square() + b.inverse_or_zero()).tolist()
            with concurrent.futures.ThreadPoolExecutor(4) as pool:
                found = list(pool.map(lambda x, y: int(x * y + x.square() + y.inverse_or_zero()), a, b))
            self.assertEqual(found, wanted)
            x, one = a[0, ...], field(1)
            y = x + 0
            y += one
            self.assertFalse((x + 1 == x) or (one == 0) or (one * 1 is one))
            self.assertEqual((int(y), int(x * 0), int(1 / one), int(field(True))), (int(x) ^ 1, 0, 1, 1))
        self.assertRaises(ValueError, operator.mul, bf.BinaryField4._of(np.array(16, np.uint8)), bf.BinaryField4(1))

    def test_negative_exponents(self):
        for field in FIELDS.values():
            a = field.random(4, seed=62)
            a[a == 0] = 1
            self.assertTrue(np.array_equal(a ** [-1, -2, 0, 3], [1 / a[0], 1 / a[1] ** 2, field(1), a[2] ** 0 * a[3] ** 3]))
            self.assertRaises(ZeroDivisionError, lambda: field([0, 1]) ** [-1, 1])
            self.assertTrue(np.array_equal(field([0, 0]) ** [0, 1], [1, 0]) and np.array_equal(a[0] ** [3, 4], [a[0] ** 3, a[0] ** 4]))
            for wrong in (0.5, [0.5] * 4, ["1"] * 4, None):
                self.assertRaises(TypeError, operator.pow, a, wrong)

    def test_memory_as_numpy_tells_it(self):
        for field in FIELDS.values():
            a = field.random((2, 3), seed=63)
            words = a.to_words(copy=False)
            self.assertEqual((a.itemsize * a.size, a.tobytes(), a.strides), (a.nbytes, words.tobytes(), words.strides[: a.ndim]))
            self.assertEqual((a.flags.c_contiguous, a.T.flags.c_contiguous, a.T.flags.f_contiguous), (True, False, True))
            for wrong in (lambda: np.copyto(np.zeros(3), a), lambda: np.full_like(a, None), lambda: np.inner(a, bf.Poly64(1).to(bf.Poly192))):
                self.assertRaises(TypeError, wrong) if field is not bf.Poly192 else None

    def test_other_kinds_of_types(self):
        for field in FIELDS.values():
            a = field.random((2, 1, 3), seed=61)
            self.assertTrue(np.array_equal(a.astype(a.dtype), a) and not np.shares_memory(a.astype(a.dtype), a))
            self.assertIs(a.astype(a.dtype, copy=False), a)
            self.assertEqual((a.squeeze().shape, a.squeeze(1).shape, np.zeros_like(a, dtype=a.dtype).shape), ((2, 3), (2, 3), (2, 1, 3)))
            for wrong in (lambda: a.astype(float), lambda: np.zeros_like(a, dtype=float), lambda: a.astype(object)):
                self.assertRaises(TypeError, wrong)
            self.assertRaises(ValueError, a.squeeze, 0)

    def test_add_scaled(self):
        for field in FIELDS.values():
            a, b = field.random((4, 5), seed=54), field.random(4, seed=55)
            wanted = a.copy()
            wanted[:, 1] += b * a[0, 0]
            a[:, 1].add_scaled(a[0, 0], b)
            self.assertTrue((a == wanted).all())
            wanted = a[0] + a[0][::-1]
            a[0].add_scaled(1, a[0][::-1])
            self.assertTrue((a[0] == wanted).all())

    def test_what_is_written(self):
        # The library is given no array that it writes and that shares memory with another, is read-only, or has gaps.
        words = np.arange(24, dtype=np.uint8)
        fixed = words[:8].copy()
        fixed.flags.writeable = False
        for error, arrays in [
            (ValueError, (words[:8], words[8:16], words[7:15])), (ValueError, (words[:8], words[8:16], words[9:17])),
            (ValueError, (words, words, words)), (ValueError, (words[:8], words[8:16], fixed)), (TypeError, (words[:8], words[8:16], words[8:24:2])),
            (TypeError, (words[:8], words[8:16], words.view(np.uint16)[8:])), (TypeError, (words[:8], words.astype(np.int64)[:8], words[16:])),
        ]:
            self.assertRaises(error, bf._library.call, "t8_add", *arrays)
        self.assertEqual(words.tolist(), list(range(24)))
        eight, odd = np.zeros(2, np.uint64), np.frombuffer(bytearray(17), np.uint64, 2, 1)
        self.assertRaises(TypeError, bf._library.call, "t64_add", eight, eight.copy(), odd)
        bf._library.call("t8_add", words[:8], words[:8], words[8:16])
        bf._library.call("t8_add", words[:16:2], words[15:7:-1], words[16:])
        self.assertEqual(words.tolist(), [*range(8), *[0] * 8, 0, 2, 4, 6, 0, 0, 0, 0])

    def test_files(self):
        for field in FIELDS.values():
            a, file = field.random((2, 3), seed=56), io.BytesIO()
            np.save(file, a)
            file.seek(0)
            self.assertTrue((field.from_words(np.load(file)) == a).all())
            file = io.BytesIO()
            np.savez(file, a.T, b=a)
            file.seek(0)
            loaded = np.load(file)
            self.assertTrue((field.from_words(loaded["arr_0"]) == a.T).all() and (field.from_words(loaded["b"]) == a).all())
            with tempfile.TemporaryDirectory() as folder:
                np.save(f"{folder}/a.npy", a)
                mapped = field.from_words(np.load(f"{folder}/a.npy", mmap_mode="r+"), copy=False)
                mapped *= a
                self.assertTrue((field.from_words(np.load(f"{folder}/a.npy")) == a * a).all())

    def test_kinds(self):
        for field in FIELDS.values():
            a = field([1, 0, 1])
            for it in (np.zeros_like(a), np.ones_like(a, shape=(2, 2)), np.where([True], a, 0), np.concatenate([a, [0]]), np.add.outer(a, a)):
                self.assertIs(type(it), field)
            self.assertEqual((np.ones_like(a, shape=2).tolist(), np.concatenate([a, [0, 1]]).tolist()), ([1, 1], [1, 0, 1, 0, 1]))
            self.assertEqual((np.append(a, 1).tolist(), np.append([0], a).tolist()), ([1, 0, 1, 1], [0, 1, 0, 1]))
            square, same = (field.Identity(2),) * 2
            square @= [[0, 1], [1, 1]]
            self.assertEqual((square is same, same.tolist()), (True, [[0, 1], [1, 1]]))
            other = bf.Poly64 if field is not bf.Poly64 else bf.BinaryField64
            b = other([1, 0, 1])
            for mixed in (
                lambda: a + b, lambda: a @ b, lambda: np.add(a, b), lambda: np.concatenate([a, b]), lambda: np.broadcast_arrays(a, b),
                lambda: np.take(a, [0], out=b[:1]), lambda: np.where([True], a, b), lambda: np.dot(a, b), lambda: np.add(a, a, out=b),
                lambda: np.add(a, a, out=np.zeros(3)), lambda: np.cumsum(a, out=np.zeros(3)), lambda: np.dot(a, a, out=b[0, ...]),
                lambda: a.__setitem__(0, b[0]), lambda: np.convolve(a, b), lambda: np.add.at(a, [0], b[:1]), lambda: field([a[0], b[0]]),
                lambda: field.evaluate(a, b), lambda: a.add_scaled(1, b), lambda: np.concatenate([a, [2]]), lambda: np.append(a, 2), lambda: np.where([True], a, 2),
                lambda: a + [0, 1, 2], lambda: [2, 0, 0] @ a, lambda: np.array([2, 0, 0]) @ a, lambda: a.dot([2, 0, 0]), lambda: a + None,
                lambda: a + "1", lambda: a + 1.0, lambda: a * np.ones(3), lambda: a**a, lambda: 2**a, lambda: np.float64(1) * a,
                lambda: np.sum(a, dtype=int), lambda: np.add(a, a, dtype=int), lambda: np.insert(a, 0, 1), lambda: np.mean(a), lambda: np.fft.ifft(a),
                lambda: np.linalg.eig(a), lambda: np.maximum(a, a), lambda: np.subtract.reduce(a), lambda: np.add.reduceat(a, [0]),
                lambda: np.einsum("i,i", a, b), lambda: np.bitwise_xor(a, a), lambda: np.tile(np.array([1]), a),
                lambda: np.add.at(np.zeros(3), [0], a), lambda: iter(a[0]),
            ):
                self.assertRaises(TypeError, mixed)
            self.assertTrue(np.array_equal(a, [1, 0, 1]) and not np.array_equal(a, b) and not np.array_equal(a, a[:2]))
            self.assertFalse(a[0] == other(1))
            self.assertTrue(a[0] != other(1))
        for call in (lambda: bf.FieldArray([1]), lambda: bf.FieldArray.zeros(3), lambda: bf.FieldArray.random(), lambda: bf.FieldArray(1)):
            self.assertRaises(TypeError, call)

    def test_formats(self):
        a = bf.Rijndael8b([1, 0x53])
        with bf.Rijndael8b.repr("poly"):
            polynomial = f"{a[1]:>20}"
        with bf.Rijndael8b.repr("int"):
            decimal = f"{a:>4}"
        self.assertEqual((f"{a:>6}", f"{a[1]:*^8}", f"{a:d}"), ("[   0x1,   0x53]", "**0x53**", "[1, 83]"))
        self.assertEqual((polynomial, decimal, f"{a:06}"), (f"{'x^6 + x^4 + x + 1':>20}", "[   1,   83]", "[0x0001, 0x0053]"))
        for shape in ((0,), (0, 3), (2, 0), (1, 0, 2)):
            empty = bf.Gf2.zeros(shape)
            self.assertEqual(eval(repr(empty), vars(bf)).shape, shape)

    def test_subclasses(self):
        # A field's subclass is that field with more to it; elements of both are mixed, and the first operand says which a result is.
        for field in FIELDS.values():
            own = type("Own", (field,), {})
            a, b = own([1, 0, 1]), field([1, 1, 0])
            self.assertEqual([type(it) for it in (a + b, b * a, np.concatenate([a, b]), field([a[0], b[0]]))], [own, field, own, field])
            self.assertEqual(((a + b).tolist(), (a == b).tolist(), type(a.to(field))), ([0, 1, 1], [True, False, False], field))
            a += b
            self.assertEqual((a.tolist(), type(a)), ([0, 1, 1], own))

    def test_attributes(self):
        for field in FIELDS.values():
            a = field([1, 0])
            self.assertRaises(AttributeError, setattr, a, "x", 1)
            for protocol in range(pickle.HIGHEST_PROTOCOL + 1):
                again = pickle.loads(pickle.dumps(a, protocol))
                self.assertEqual((type(again), again.tolist()), (field, [1, 0]))
        with self.assertRaisesRegex(TypeError, r"^matrix_rank\(\)"):
            np.linalg.matrix_rank(a.reshape(1, 2), tol=1)

    def test_rows_that_trade_places(self):
        # Rows are views: what writes one after the other loses one, which is refused, and leaves all as it was.
        for field in FIELDS.values():
            a = field.random((6, 2), seed=64)
            a[:, 0] = [1, 0, 1, 0, 1, 0]
            whole = a.tolist()
            for trade in (
                np.random.default_rng(1).shuffle, np.random.RandomState(1).shuffle, random.Random(1).shuffle, lambda it: swap(it, 0, 1),
                lambda it: swap(it, (slice(None), 0), (slice(None), 1)), lambda it: swap(it, slice(0, 3), slice(3, 6)), turn,
            ):
                with warnings.catch_warnings():
                    warnings.simplefilter("ignore", UserWarning)
                    with self.assertRaisesRegex(TypeError, "^rows are views"):
                        trade(a)
                self.assertEqual(a.tolist(), whole)
            # Each place is that of another one, elements are copies, and a view shows what is there now.
            a[[0, 1]] = a[[1, 0]]
            self.assertEqual(a.tolist(), [whole[1], whole[0], *whole[2:]])
            a[0, 0], a[1, 0] = a[1, 0], a[0, 0]
            self.assertEqual(a[:2, 0].tolist(), [1, 0])
            for at in range(5, 0, -1):
                a[at] = a[at - 1]
            self.assertEqual(a[1:, 0].tolist(), [1, 0, 1, 0, 1])
            row = a[0]
            a[0] = 1
            a[1] = row
            self.assertEqual(a[1].tolist(), [1, 1])
            first, second = a[2], a[3]
            a[2] = second
            self.assertEqual(first.tolist(), a[3].tolist())

    def test_shuffles(self):
        for field in FIELDS.values():
            a, numbers = field.random((5, 3), seed=65), np.arange(15).reshape(5, 3)
            for axis in (0, 1, -1):
                b, moved = a.copy(), numbers.copy()
                field.shuffle(b, np.random.default_rng(2), axis)
                np.random.default_rng(2).shuffle(moved, axis)
                self.assertTrue((b == a.ravel()[moved]).all())
                self.assertTrue((a.permuted(3, axis) == a.ravel()[np.random.default_rng(3).permuted(numbers, axis=axis)]).all())
            self.assertTrue((a.permuted(3) == a.ravel()[np.random.default_rng(3).permuted(numbers)]).all())
            draw = np.random.default_rng(4)
            self.assertEqual(sorted(int(it) for it in np.ravel(draw.permutation(a))), sorted(a.ravel().tolist()))

    def test_draws(self):
        for field in FIELDS.values():
            self.assertTrue((field.Random(50, seed=5) == field.random(50, 5)).all())
            self.assertTrue((field.Random((9, 9), 1, None, 6) != 0).all() and (field.random(9, low=1, high=2) == 1).all())
            top = field.order
            drawn = field.random(200, 7, low=top - 2).tolist()
            self.assertEqual(set(drawn), {top - 2, top - 1})
            for low, high in ((0, 0), (1, 1), (-1, 1), (0, top + 1), (top, None)):
                self.assertRaises(ValueError, field.random, 3, low=low, high=high)

    def test_names_of_galois(self):
        for field in FIELDS.values():
            made = [field.Zeros(2), field.Ones(2), field.Range(2), field.Range(0, 2, 1), field.range(1, 2), field.Identity(2), field.identity(2)]
            self.assertEqual([it.tolist() for it in made], [[0, 0], [1, 1], [0, 1], [0, 1], [1], [[1, 0], [0, 1]], [[1, 0], [0, 1]]])
            a = field.random((2, 3), seed=66)
            for order, digits in (("desc", f"0{field.degree}b"), ("asc", "")):
                texts = [format(it, f"0{field.degree}b")[:: 1 if digits else -1] for it in a.ravel().tolist()]
                vectors = a.vector(order)
                self.assertEqual(vectors.tolist(), [[[int(bit) for bit in it] for it in texts[at : at + 3]] for at in (0, 3)])
                self.assertTrue((field.Vector(vectors, order) == a).all() and (field.Vector(vectors.tolist(), order) == a).all())
                self.assertIs(type(vectors), bf.Gf2)
            self.assertRaises(ValueError, field.Vector, [0] * (field.degree + 1))
            self.assertRaises(ValueError, a.vector, "big")
            self.assertEqual(((a - a).additive_order().tolist(), field(1).additive_order()), ([[1] * 3] * 2, 2))
            self.assertIn(f"GF(2^{field.degree})", field.properties)
            self.assertEqual(field.view(a, field).tolist(), a.tolist())
            for kind in (float, int, bf.FieldArray, bf.Poly64 if field is not bf.Poly64 else bf.Gf2):
                self.assertRaises(TypeError, a.view, kind)
            self.assertRaises(TypeError, np.zeros(3, np.uint8).view, field)
            if field.degree > 64:
                self.assertRaises(TypeError, a.view, np.ndarray)
                self.assertRaises(ValueError, field.repr_table)
            else:
                a.view(np.ndarray)[0, 0] = 1
                self.assertEqual((int(a[0, 0]), a.view(np.ndarray).tolist(), a.view(np.ndarray).dtype), (1, a.tolist(), a.dtype))

    def test_tables(self):
        for field in (bf.Gf2, bf.BinaryField2, bf.BinaryField4, bf.Rijndael8b):
            lines = field.repr_table().splitlines()
            numbers = [int(it.split()[-1], 16) for it in lines[2:]]
            self.assertEqual(numbers, [0, *(field.primitive_element ** list(range(field.order - 1))).tolist()])
            self.assertEqual([int(it.split()[-1], 16) for it in field.repr_table(sort="int").splitlines()[2:]], list(range(field.order)))
            self.assertEqual("Polynomial" in lines[0], field is bf.Rijndael8b)
            for sign, operation in (("+", operator.add), ("-", operator.sub), ("*", operator.mul), ("/", operator.truediv)):
                y = field.units if sign == "/" else field.elements
                rows = [[int(it, 16) for it in line.partition("|")[2].split()] for line in field.arithmetic_table(sign).splitlines()[2:]]
                self.assertEqual(rows, operation(field.elements.reshape(-1, 1), y).tolist())
            self.assertEqual(len(field.arithmetic_table("+", [0, 1], [1]).splitlines()), 4)
            for wrong in (lambda: field.arithmetic_table("%"), lambda: field.repr_table(0), lambda: field.repr_table(sort="poly"), lambda: field.arithmetic_table("+", 1)):
                self.assertRaises(ValueError, wrong)

    def test_texts_of_polynomials(self):
        for field in FIELDS.values():
            if field in (bf.Rijndael8b, bf.Poly64, bf.Ghash128):
                self.assertEqual([int(field(it)) for it in ("x^2 + 1", "x", "x^7+x")], [5, 2, 130])
                self.assertEqual(field(["x", "ff"]).tolist(), [2, 255])
                self.assertRaises(ValueError, field, f"x^{field.degree}")
            else:
                self.assertRaisesRegex(ValueError, "no polynomials over", field, "x^2 + 1")
            self.assertRaisesRegex(ValueError, "no text of hexadecimal digits", field, "nothing")

    def test_messages(self):
        for field in FIELDS.values():
            a = field([1, 0])
            for number, times in ((7, 1), (12, 0)):
                meant = f"{field.__name__}({number})" if number < field.order else "a representation, of which there is none"
                for wrong in (lambda: a * number, lambda: a + [1, number], lambda: number - a, lambda: np.multiply(a, np.array([0, number]))):
                    with self.assertRaises(TypeError) as raised:
                        wrong()
                    self.assertIn(f"{number} could be {meant}, or {number} times 1, which is {times}", str(raised.exception))
            self.assertRaisesRegex(TypeError, "and not float$", lambda: a * 0.5)
            with self.assertRaisesRegex(np.linalg.LinAlgError, "^Singular matrix$"):
                np.linalg.inv(field([[1, 1], [1, 1]]))
            self.assertRaisesRegex(TypeError, r"transform\(\)", np.fft.rfft, a)

    def test_orders(self):
        # By representation, and of wide elements by the highest word that differs.
        for field in FIELDS.values():
            a = field.random((4, 6), seed=67)
            a[1], a[:, 3] = a[0], a[:, 4].copy()
            o, b, c = np.array(a.tolist(), dtype=object), a[0].copy(), np.array(a[0].tolist(), dtype=object)
            for axis in (0, -1, None):
                self.assertEqual(np.sort(a, axis=axis).tolist(), np.sort(o, axis=axis).tolist())
                self.assertEqual(np.argsort(a, axis, "stable").tolist(), np.argsort(o, axis, "stable").tolist())
                for function in (np.min, np.max, np.argmin, np.argmax):
                    self.assertEqual(function(a, axis=axis).tolist(), np.asarray(function(o, axis=axis)).tolist())
            self.assertEqual((np.max(a, initial=0).tolist(), np.min(a, axis=0, keepdims=True).shape), (int(o.max()), (1, 6)))
            found, known = (np.unique(it, return_index=True, return_inverse=True, return_counts=True) for it in (a, o))
            self.assertEqual([it.ravel().tolist() for it in found], [np.asarray(it).ravel().tolist() for it in known])
            self.assertEqual(np.unique(a, axis=0).tolist(), sorted(map(list, set(map(tuple, a.tolist())))))
            self.assertEqual((np.isin(a, b).tolist(), np.isin(a, b, invert=True).tolist()), (np.isin(o, c).tolist(), (~np.isin(o, c)).tolist()))
            for function in (np.union1d, np.intersect1d, np.setdiff1d, np.setxor1d):
                self.assertEqual(function(a[2], b).tolist(), function(o[2], c).tolist())
            ordered = np.sort(a[2])
            self.assertEqual(np.searchsorted(ordered, a).tolist(), np.searchsorted(np.sort(o[2]), o).tolist())
            self.assertIs(type(np.sort(a)), field)

    def test_sums_by_labels(self):
        for field in SOME:
            a, b, c = field.random((3, 4), seed=68), field.random((4, 2), seed=69), field.random((2, 3, 4), seed=70)
            s, v = field.random((3, 3), seed=71), field.random(4, seed=72)
            for wanted, arguments in [
                (a @ b, ("ij,jk->ik", a, b)), (a @ b, ("ij,jk", a, b)), ((a @ b).T, ("ij , jk -> ki", a, b)), (a.T, ("ij->ji", a)), (a.sum(), ("ij->", a)),
                (a.sum(1), ("ij->i", a)), (s.trace(), ("ii", s)), (s.diagonal(), ("ii->i", s)), (a * a, ("ij,ij->ij", a, a)), (np.outer(v, v), ("i,j->ij", v, v)),
                (c @ b, ("...j,jk->...k", c, b)), (c * v, ("...i,...i->...i", c, v)), (c @ v, ("...i,i", c, v)), (s @ a @ b, ("ij,jk,kl->il", s, a, b)),
                (a @ b, (a, [0, 1], b, [1, 2], [0, 2])), (a @ b, (a, [0, 1], b, [1, 2])), (c.sum(0), (c, [0, ...], [...])), (v[0] * v, (",i->i", v[0], v)),
                (np.tensordot(c, c, ([0, 1], [0, 1])), ("ijk,ijl->kl", c, c)), ((c * c).sum(), ("ijk,ijk", c, c)), (s[:1] * s, ("...,...", s[:1], s)),
                (a.sum(1), ("ij,j->i", a, [1, 1, 1, 1])),
            ]:
                found = np.einsum(*arguments)
                self.assertEqual((type(found), found.shape, found.tolist()), (field, wanted.shape, wanted.tolist()))
            out = field.zeros((3, 2))
            self.assertTrue(np.einsum("ij,jk", a, b, out=out) is out and (out == a @ b).all())
            for wrong in (("ij,jk->ik", a, a), ("ij->k", a), ("ij", v), ("ij,jk", a), ("ii", a), ("i.j", a), ("ij->ii", a), ("...i->i", a)):
                self.assertRaises(ValueError, np.einsum, *wrong)
            self.assertRaises(TypeError, np.einsum, "i,i", v, [1, 2, 3, 4])
            self.assertRaises(TypeError, lambda: np.einsum("i,i", v, v, dtype=int))

    def test_pads(self):
        for field in SOME:
            a = field.random((3, 4), seed=73)
            o = np.array(a.tolist(), dtype=object)
            for mode in ("edge", "reflect", "symmetric", "wrap", "constant"):
                self.assertEqual(np.pad(a, ((1, 2), (0, 3)), mode).tolist(), np.pad(o, ((1, 2), (0, 3)), mode).tolist())
            values = ((1, 0), (0, 1))
            self.assertEqual(np.pad(a, 1, constant_values=values).tolist(), np.pad(o, 1, constant_values=values).tolist())
            self.assertEqual(np.pad(a, 1, constant_values=a[0, 0])[0, 0].tolist(), int(a[0, 0]))
            for wrong in ({"mode": "mean"}, {"mode": "linear_ramp"}, {"mode": "reflect", "reflect_type": "odd"}, {"mode": lambda *it: None}):
                self.assertRaises(TypeError, lambda: np.pad(a, 1, **wrong))

    def test_elements_are_no_places(self):
        for field in FIELDS.values():
            a = field([1, 0, 1])
            for wrong in (
                lambda: [5, 6][a[0]], lambda: np.take(a, a), lambda: np.tile(5, a), lambda: np.tile(a, a), lambda: np.roll(a, a[0]), lambda: np.delete(a, a),
                lambda: np.repeat(a, a), lambda: np.compress(a, a), lambda: np.extract(a, a), lambda: np.take_along_axis(a, a, 0), lambda: a.take(a),
                lambda: np.reshape(a, field([1])), lambda: np.split(a, a), lambda: np.broadcast_to(a, a),
            ):
                self.assertRaises((TypeError, IndexError), wrong)

    def test_every_bit_counts(self):
        for field in FIELDS.values():
            bits = field([1 << i for i in range(field.degree)])
            self.assertTrue(bits.all() and np.array_equal(1 / (1 / bits), bits) and all(bool(it) for it in bits))
            self.assertEqual(np.equal.outer(bits, bits).tolist(), np.eye(field.degree, dtype=bool).tolist())
            self.assertEqual(([bool(it != 0) for it in bits], bool((bits == 0).any())), ([True] * field.degree, False))

    def test_empty_arrays(self):
        for field in FIELDS.values():
            a = field.zeros((2, 0, 3))
            for wanted, found in [
                (((2, 3), [0] * 6), a.sum(1)), (((2, 3), [1] * 6), a.prod(1)), (((2, 0), []), a.prod(2)), (((2, 0, 3), []), a * a),
                (((2, 0, 3), []), np.cumprod(a, 1)),
                (((2, 0, 0), []), a @ field.zeros((3, 0))), (((2, 3, 3), [0] * 18), a.swapaxes(1, 2) @ a), (((0,), []), a.ravel()),
                (((), [1]), a.prod()), (((), [0]), a.sum()),
                (((0, 2, 3), []), field.zeros((0, 0)).dot(a)), (((2, 3), [0] * 6), field.zeros(0).dot(a)),
                (((2, 0, 3), []), field.from_words(a.to_words())),
            ]:
                self.assertEqual(read(found), wanted)
            self.assertEqual((a.tolist(), str(field([]))), ([[], []], "[]"))


class Examples(unittest.TestCase):
    """The examples in the package's texts."""

    def test_examples(self):
        tried = 0
        modules = ("_storage", "_draws", "_facts", "_matrices", "_arrays", "_library", "_poly", "_transforms", "_workers", "_bytes", "_hardware")
        for module in [bf, *(getattr(bf, name) for name in modules)]:
            found = doctest.testmod(module)
            self.assertEqual((module.__name__, found.failed, found.attempted > 0), (module.__name__, 0, True))
            tried += found.attempted
        self.assertGreater(tried, 220)

    def test_every_function_has_one(self):
        functions = {name: getattr(bf, name) for name in bf.__all__ if not isinstance(getattr(bf, name), type)}
        codes = (bf._bytes._Code, bf.ReedSolomon, bf.PreparedReconstruct, bf.TransformCode)
        for kind in (bf._storage.Stored, bf._draws.Drawn, bf._facts.Facts, bf._matrices.Matrices, bf.FieldArray, bf.Poly, *bf.Ghash.__mro__[:-1], *codes):
            functions |= {name: it for name, it in vars(kind).items() if not name.startswith("_") and not isinstance(it, property)}
        lacking = [name for name, it in functions.items() if callable(it) or isinstance(it, classmethod) if ">>> " not in (it.__doc__ or "")]
        self.assertEqual((lacking, len(functions) > 90), ([], True))


if __name__ == "__main__":
    unittest.main()
