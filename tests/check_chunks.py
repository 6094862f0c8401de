"""Tests of arrays of elements as the chunks of dask's arrays, against the same arrays whole: check_chunks.py.

The package is the one that Python finds, as check_package.py has it. What the arrays give by themselves is compared with the definitions in
the other tests.
"""

import doctest
import operator
import unittest

import dask
import dask.array as da
import numpy as np
from check_package import FIELDS

import binary_field as bf
from binary_field import chunks

SPLIT = ((3, 5), (2, 2, 2))


class Chunks(unittest.TestCase):
    """Every function, and what dask does by itself."""

    def setUp(self):
        dask.config.set(scheduler="threads")

    def compare(self, cases):
        for found, wanted in cases:
            got = found.compute()
            self.assertEqual((found.shape, got.shape, type(got), found.dtype), (wanted.shape, wanted.shape, type(wanted), wanted.dtype))
            self.assertTrue(np.array_equal(got, wanted))

    def each_field(self):
        for field in FIELDS.values():
            a = field.random((8, 6), seed=1)
            yield field, a, chunks.from_array(a, SPLIT)

    def test_places(self):
        for field, a, x in self.each_field():
            one = field.random(seed=2)
            self.compare([
                (chunks.each(np.multiply, x, x), a * a), (chunks.each(operator.add, x, x[0]), a + a[0]), (chunks.each(np.multiply, one, x), a * one),
                (chunks.each(np.square, x), a * a), (chunks.each(lambda it: it**3, x[2:, 1]), a[2:, 1] ** 3),
                (chunks.each(operator.mul, x[:, :1], x[:1]), a[:, :1] * a[:1]),
            ])
            self.assertRaises(ZeroDivisionError, chunks.each(np.reciprocal, chunks.from_array(a * 0, 2)).compute)

    def test_axes(self):
        for _, a, x in self.each_field():
            for function, name in ((chunks.sum, "sum"), (chunks.prod, "prod")):
                whole = getattr(a, name)
                self.compare([
                    (function(x), whole()), (function(x, 0), whole(0)), (function(x, axis=1, keepdims=True), whole(1, keepdims=True)),
                    (function(x, (0, 1)), whole((0, 1))), (function(x.T, 0), whole(1)),
                ])

    def test_products(self):
        for field, a, x in self.each_field():
            b, stack = field.random((6, 5), seed=3), field.random((2, 3, 5, 8), seed=4)
            y, z = chunks.from_array(b, (4, 2)), chunks.from_array(stack, (1, 2, 3, 3))
            self.compare([
                (chunks.matmul(x, y), a @ b), (chunks.matmul(z, x), stack @ a), (chunks.matmul(x.T, x), a.T @ a), (chunks.matmul(y.T, x.T), b.T @ a.T),
                (chunks.matmul(x, z.swapaxes(-1, -2)[..., :6, :]), a @ stack.swapaxes(-1, -2)[..., :6, :]),
            ])
            for wrong in (lambda: chunks.matmul(x, x), lambda: chunks.matmul(x, x[0])):
                self.assertRaises(ValueError, wrong)

    def test_words(self):
        for field, a, x in self.each_field():
            words = chunks.to_words(x)
            self.assertTrue(np.array_equal(words.compute(), a.to_words()))
            self.compare([(chunks.from_words(words, field), a), (chunks.from_words(da.from_array(a.to_words(), 3), field), a)])
        self.assertRaises(ValueError, chunks.from_words(da.full(3, 16, dtype=np.uint8), bf.BinaryField4).compute)

    def test_moves(self):
        for _, a, x in self.each_field():
            self.compare([
                (x.T, a.T), (x[1:5, ::2], a[1:5, ::2]), (x[::-1], a[::-1]), (x.reshape(48), a.reshape(48)), (x.rechunk((8, 1)), a),
                (da.concatenate([x, x]), np.concatenate([a, a])), (da.stack([x, x]), np.stack([a, a])), (da.roll(x, 3), np.roll(a, 3)),
                (x.map_blocks(np.square), a * a), (x[x[:, 0] == x[:, 0]].compute_chunk_sizes(), a), (x.swapaxes(0, 1), a.swapaxes(0, 1)),
            ])
            self.assertTrue((x == x).all().compute())

    def test_examples(self):
        found = doctest.testmod(chunks)
        self.assertEqual((found.failed, found.attempted > 8), (0, True))


if __name__ == "__main__":
    unittest.main()
