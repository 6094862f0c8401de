"""Tests of the Python package's linear algebra, against matrices of plain integers: check_matrices.py.

The package is the one that Python finds, as check_package.py has it. A determinant is the sum over permutations, a rank the size of the
largest part with a determinant that is not 0, and a space the set of all its vectors, each by the definitions of the fields.
"""

import itertools
import unittest
from unittest import mock

import definitions
import numpy as np
from check_package import FIELDS

import binary_field as bf

SMALL = [bf.Gf2, bf.BinaryField2]
LINEAR = bf._matrices


def defined_of(field):
    return definitions.FIELDS[field._name]


def plain_product(defined, a, b):
    return [[definitions.total(defined.multiply(*it) for it in zip(row, column)) for column in zip(*b)] for row in a]


def plain_determinant(defined, a):
    """The sum over permutations of the products of the places; -1 is 1."""
    orders = itertools.permutations(range(len(a)))
    return definitions.total(definitions.running([a[i][j] for i, j in enumerate(it)], defined.multiply, 1)[-1] for it in orders)


def plain_rank(defined, a):
    """The size of the largest square part whose determinant is not 0."""
    for size in range(min(len(a), len(a[0]) if a else 0), 0, -1):
        for rows in itertools.combinations(range(len(a)), size):
            for columns in itertools.combinations(range(len(a[0])), size):
                if plain_determinant(defined, [[a[i][j] for j in columns] for i in rows]):
                    return size
    return 0


def vectors(field, count):
    return itertools.product(range(field.order), repeat=count)


def combinations(field, rows, count):
    """All combinations of rows of so many elements."""
    defined = defined_of(field)
    return {tuple(plain_product(defined, [list(it)], rows)[0]) if rows else (0,) * count for it in vectors(field, len(rows))}


def some_matrices(field):
    """Matrices of several shapes; of some the ranks are less than the shapes allow, and in some rows have to be moved."""
    for at, (rows, columns) in enumerate([(1, 1), (2, 2), (3, 3), (2, 4), (4, 2), (3, 1), (1, 3)]):
        yield field.random((rows, columns), seed=at)
        yield field.zeros((rows, columns))
        yield field.random((rows, 1), seed=at) @ field.random((1, columns), seed=at + 50)
        moved = field.random((rows, columns), seed=at)
        moved[0] = 0
        yield moved[::-1] if at % 2 else moved
        if rows == columns:
            yield field.Identity(rows)[::-1]
            later = field.Identity(rows)[::-1] + field.random((rows, rows), seed=at + 60)
            later[0, 0] = 0
            yield later


def identity(size):
    return np.eye(size, dtype=int).tolist()


class Functions(unittest.TestCase):
    """Those of np.linalg."""

    def test_determinants_and_ranks(self):
        for field in FIELDS.values():
            defined = defined_of(field)
            for a in some_matrices(field):
                self.assertEqual(np.linalg.matrix_rank(a), plain_rank(defined, a.tolist()))
                if a.shape[0] == a.shape[1]:
                    self.assertEqual(int(np.linalg.det(a)), plain_determinant(defined, a.tolist()))
            self.assertEqual((np.linalg.matrix_rank(field([0, 1])), np.linalg.matrix_rank(field([0, 0])), np.linalg.matrix_rank(field(1))), (1, 0, 1))

    def test_inverses_and_solutions(self):
        for field in FIELDS.values():
            defined = defined_of(field)
            for a in some_matrices(field):
                if a.shape[0] != a.shape[1]:
                    continue
                size = len(a)
                b, v = field.random((size, 2), seed=70), field.random(size, seed=71)
                if plain_rank(defined, a.tolist()) < size:
                    for singular in (lambda: np.linalg.inv(a), lambda: np.linalg.solve(a, b), lambda: np.linalg.matrix_power(a, -1)):
                        self.assertRaises(np.linalg.LinAlgError, singular)
                    continue
                before = a.tolist()
                self.assertEqual(plain_product(defined, before, np.linalg.inv(a).tolist()), identity(size))
                self.assertEqual(plain_product(defined, before, np.linalg.solve(a, b).tolist()), b.tolist())
                self.assertEqual(plain_product(defined, before, [[it] for it in np.linalg.solve(a, v).tolist()]), [[it] for it in v.tolist()])
                self.assertEqual(plain_product(defined, before, np.linalg.solve(a, identity(size)).tolist()), identity(size))
                self.assertEqual(a.tolist(), before)

    def test_powers(self):
        for field in FIELDS.values():
            defined, a = defined_of(field), field([[1, 1], [0, 1]]) @ field.random((2, 2), seed=72)
            wanted = identity(2)
            for exponent in range(6):
                self.assertEqual(np.linalg.matrix_power(a, exponent).tolist(), wanted)
                wanted = plain_product(defined, wanted, a.tolist())
            b = field([[1, 1], [1, 0]])
            self.assertEqual(plain_product(defined, np.linalg.matrix_power(b, -2).tolist(), (b @ b).tolist()), identity(2))
            self.assertTrue(np.array_equal(np.linalg.multi_dot([a, b, a, a[0]]), a @ b @ a @ a[0]))

    def test_stacks(self):
        for field in FIELDS.values():
            # Among many matrices over small fields some are singular, and pivots stand at different places.
            a, b = field.random((2, 30, 3, 3), seed=73), field.random((30, 3, 2), seed=74)
            a[0, 0], a[1, 1, 1], a[1, 2] = 0, a[1, 1, 0], field.Identity(3)
            ranks, found = np.linalg.matrix_rank(a), np.linalg.det(a)
            for at in np.ndindex(2, 30):
                self.assertEqual((ranks[at], found[at]), (np.linalg.matrix_rank(a[at]), np.linalg.det(a[at])))
            self.assertTrue((ranks < 3).any() and (ranks == 3).any())
            self.assertRaises(np.linalg.LinAlgError, np.linalg.inv, a)
            whole = a[ranks == 3]
            for made, matrix in zip(np.linalg.inv(whole), whole):
                self.assertTrue(np.array_equal(made, np.linalg.inv(matrix)))
            a[ranks < 3] = field([[1, 1, 0], [0, 1, 1], [0, 0, 1]])
            self.assertTrue(np.array_equal(a @ np.linalg.solve(a, b), np.broadcast_to(b, (2, 30, 3, 2))))
            self.assertTrue(np.array_equal(np.linalg.solve(a[0, 2], b)[5], np.linalg.solve(a[0, 2], b[5])))
            self.assertTrue(np.array_equal(np.linalg.matrix_power(a, 3)[1, 2], a[1, 2] @ a[1, 2] @ a[1, 2]))
            self.assertEqual(np.linalg.inv(field.zeros((0, 3, 3))).shape, (0, 3, 3))
            self.assertEqual((np.linalg.det(field.zeros((2, 0, 0))).tolist(), np.linalg.matrix_rank(field.zeros((0, 4)))), ([1, 1], 0))

    def test_long_rows(self):
        for field in FIELDS.values():
            a, b = field.random((6, 6), seed=75), field.random((6, 9), seed=76)
            for it in (a, b, b.T, np.stack([a, a.T])):
                short = LINEAR.reduced(it, it.shape[-1])
                with mock.patch.object(LINEAR, "_LONG_ROW", 0):
                    rows = LINEAR.reduced(it, it.shape[-1])
                for x, y in zip(short, rows):
                    self.assertTrue(np.array_equal(x, y))

    def test_calls_and_numpy(self):
        """A call of the library for each matrix gives what numpy does with a stack at once."""
        for field in FIELDS.values():
            a, b, low = field.random((6, 6), seed=77), field.random((6, 9), seed=78), field.random((6, 2), seed=79) @ field.random((2, 6), seed=80)
            moved = field.Identity(6)[::-1]
            ways = (lambda: a @ b, lambda: np.linalg.det(a), lambda: np.linalg.inv(moved),
                    lambda: LINEAR.echelon(low)[0], lambda: np.linalg.matrix_rank(low), lambda: low.left_null_space(), lambda: b.T.row_space())
            by_calls = [it() for it in ways]
            with mock.patch.object(LINEAR, "_FEW", -1):
                for it, found in zip(ways, by_calls):
                    self.assertTrue(np.array_equal(it(), found))

    def test_what_is_refused(self):
        for field in FIELDS.values():
            a = field.ones((2, 3))
            for wrong in (np.linalg.inv, np.linalg.det, lambda it: np.linalg.solve(it, it), lambda it: np.linalg.matrix_power(it, 2)):
                self.assertRaises(np.linalg.LinAlgError, wrong, a)
                self.assertRaises(np.linalg.LinAlgError, wrong, a[0])
            square = field.Identity(2)
            for wrong in (lambda: np.linalg.solve(square, a[0]), lambda: square.row_reduce(3), lambda: square.row_reduce(-1), square[0].row_space):
                self.assertRaises(ValueError, wrong)
            other = bf.Poly64 if field is not bf.Poly64 else bf.BinaryField64
            for wrong in (
                lambda: np.linalg.solve(square, other.Identity(2)), lambda: np.linalg.matrix_power(square, 0.5), lambda: np.linalg.eig(square),
                lambda: np.linalg.norm(square), lambda: np.linalg.matrix_rank(square, 1e-3), lambda: np.linalg.svd(square),
            ):
                self.assertRaises(TypeError, wrong)
            self.assertRaises(ValueError, square[np.newaxis].null_space)


class Methods(unittest.TestCase):
    """Those of arrays, and matrices that classes make."""

    def test_echelon_forms(self):
        for field in FIELDS.values():
            for a in some_matrices(field):
                for count in range(a.shape[1] + 1):
                    form = a.row_reduce(count)
                    pivots = [int(np.flatnonzero(it)[0]) for it in form if it[:count].any()]
                    self.assertEqual(pivots, sorted(set(pivots)))
                    # Each pivot is 1 and alone in its column, rows without one come last, and the rows span what they did.
                    self.assertEqual(form[:, pivots].tolist(), np.eye(len(form), dtype=int)[:, : len(pivots)].tolist())
                    self.assertFalse(form[len(pivots) :, :count].any())
                    self.assertEqual(np.linalg.matrix_rank(np.concatenate([a, form])), np.linalg.matrix_rank(a))
                self.assertTrue(np.array_equal(a.row_reduce(), form))

    def test_spaces_of_small_fields(self):
        for field in SMALL:
            for a in some_matrices(field):
                rows, columns = a.shape
                plain, turned = a.tolist(), a.T.tolist()
                images = {it: plain_product(defined_of(field), plain, [[x] for x in it]) for it in vectors(field, columns)}
                none = [[0]] * rows
                self.assertEqual(combinations(field, a.null_space().tolist(), columns), {it for it, image in images.items() if image == none})
                self.assertEqual(combinations(field, a.row_space().tolist(), columns), combinations(field, plain, columns))
                self.assertEqual(combinations(field, a.column_space().tolist(), rows), combinations(field, turned, rows))
                self.assertEqual(a.left_null_space().tolist(), a.T.null_space().tolist())

    def test_spaces(self):
        for field in FIELDS.values():
            for a in some_matrices(field):
                size = np.linalg.matrix_rank(a)
                self.assertEqual([len(it) for it in (a.row_space(), a.column_space())], [size] * 2)
                self.assertEqual((a.null_space().shape, a.left_null_space().shape), ((a.shape[1] - size, a.shape[1]), (a.shape[0] - size, a.shape[0])))
                self.assertFalse((a @ a.null_space().T).any() or (a.left_null_space() @ a).any())

    def test_decompositions(self):
        refused = 0
        for field in FIELDS.values():
            defined = defined_of(field)
            for a in some_matrices(field):
                moved, low, high = a.plu_decompose()
                self.assertEqual(plain_product(defined, moved.tolist(), plain_product(defined, low.tolist(), high.tolist())), a.tolist())
                self.assertEqual((sorted(moved.tolist()), sorted(moved.T.tolist())), (sorted(identity(len(a))),) * 2)
                try:
                    pairs = [(low, high), a.lu_decompose()]
                except ValueError:
                    refused += 1
                    pairs = [(low, high)]
                for low, high in pairs:
                    self.assertFalse(np.triu(low, 1).any() or np.tril(high, -1).any())
                    self.assertTrue((low.diagonal() == 1).all())
                if len(pairs) == 2:
                    self.assertEqual(plain_product(defined, low.tolist(), high.tolist()), a.tolist())
        self.assertGreater(refused, 10)

    def test_polynomials(self):
        for field in FIELDS.values():
            larger, defined = (bf.BinaryField8, definitions.FIELDS["t8"]) if field.degree < 8 else (field, defined_of(field))
            for a in (it for it in some_matrices(field) if it.shape[0] == it.shape[1]):
                size, plain = len(a), larger(a).tolist()
                found, least = a.characteristic_poly(), a.minimal_poly()
                # A monic polynomial is told by as many values as its degree says.
                self.assertEqual((found.degree, found.is_monic, found.field), (size, True, field))
                for x in range(size + 1):
                    wanted = plain_determinant(defined, [[it ^ (x if i == j else 0) for j, it in enumerate(row)] for i, row in enumerate(plain)])
                    self.assertEqual(int(bf.Poly(larger(found.coeffs))(larger(x))), wanted)
                # The powers below the degree of the other one are independent, and those up to it are not.
                powers = [np.linalg.matrix_power(a, it) for it in range(least.degree + 1)]
                self.assertEqual(np.linalg.matrix_rank(np.stack([it.ravel() for it in powers])), least.degree)
                self.assertFalse(sum((it * c for it, c in zip(powers, least.coefficients(order="asc"))), field.zeros(a.shape)).any())
                self.assertEqual((least.is_monic, found % least), (True, 0))
            poly = bf.Poly.Random(4, seed=77, field=field)
            poly = poly * poly.coeffs[0].reciprocal()
            self.assertEqual((poly.companion_matrix().characteristic_poly(), poly.companion_matrix().minimal_poly()), (poly, poly))
            x = field(field.order - 1)
            self.assertEqual((x.characteristic_poly().degree, x.characteristic_poly().factors()[0]), (field.degree, [x.minimal_poly()]))
            self.assertRaises(ValueError, bf.Poly.One(field).companion_matrix)
            for wrong in (field.ones((2, 3)), field.ones(2)):
                self.assertRaises(ValueError, wrong.characteristic_poly)
                self.assertRaises(ValueError, wrong.minimal_poly)

    def test_methods(self):
        for field in FIELDS.values():
            a = field.random((2, 3, 3), seed=82)
            a[:, [0, 1, 2], [0, 1, 2]] += field.primitive_element
            self.assertEqual((a.det().tolist(), a.rank().tolist()), (np.linalg.det(a).tolist(), np.linalg.matrix_rank(a).tolist()))
            regular = a[a.rank() == 3]
            self.assertEqual(regular.inv().tolist(), np.linalg.inv(regular).tolist())
            self.assertEqual((field.Identity(2).rank(), type(a.det())), (2, field))
            with self.assertRaisesRegex(np.linalg.LinAlgError, "^Singular matrix$"):
                field.zeros((2, 2)).inv()

    def test_made_matrices(self):
        for field in FIELDS.values():
            defined, x = defined_of(field), int(field.primitive_element)
            found = field.Vandermonde(x, 3, 4)
            self.assertEqual(found.tolist(), [[defined.power(x, i * j) for j in range(4)] for i in range(3)])
            self.assertEqual([field.Vandermonde(x, *it).shape for it in ((0, 3), (3, 0), (1, 1))], [(0, 3), (3, 0), (1, 1)])
            self.assertEqual((field.Identity(3).tolist(), type(field.Identity(0))), (identity(3), field))
            self.assertRaises(ValueError, field.Vandermonde, field([x, x]), 2, 2)
            self.assertRaises(ValueError, field.Cauchy, field.ones((1, 1)), field.zeros(1))
            self.assertRaises(ZeroDivisionError, field.Cauchy, [0, 1], [1])
            if field.degree > 2:
                wanted = [[defined.inverse(i ^ j) for j in (4, 5, 6)] for i in (1, 2, 3)]
                self.assertEqual(field.Cauchy([1, 2, 3], [4, 5, 6]).tolist(), wanted)
                self.assertNotEqual(plain_determinant(defined, wanted), 0)


if __name__ == "__main__":
    unittest.main()
