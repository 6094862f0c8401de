"""Tests the classes of fields that a caller of the Python package chooses, beside plain integers.

    check_chosen.py
"""

import pickle
import random
import unittest

import binary_field as bf
import definitions
import numpy as np

# Degrees with moduli: Conway polynomials, those of QR codes, of PAR2, of CCSDS and of NIST's curves below 128, and dense ones.
MODULI = [
    (2, 0b111), (3, 0b1011), (3, 0b1101), (5, 0x25), (8, 0x11D), (8, 0x187), (12, 0x10EB), (16, 0x1100B), (31, 0x80000009), (33, 0x200003D49),
    (64, 0x10000000247F43CB7), (113, 1 << 113 | 1 << 9 | 1), (127, 1 << 127 | 3),
]


class Chosen(unittest.TestCase):
    """Arrays over such fields."""

    def fields(self):
        return [(bf.GF(2**degree, irreducible_poly=it), it, random.Random(it)) for degree, it in MODULI]

    def test_arithmetic(self):
        for field, modulus, draw in self.fields():
            x = [draw.getrandbits(field.degree) for _ in range(5)] + [0, 1, field.order - 1]
            y = [draw.getrandbits(field.degree) or 1 for _ in x]
            a, b = field(x), field(y)
            times = lambda p, q: definitions.chosen_product(modulus, p, q)
            self.assertEqual((a + b).tolist(), [p ^ q for p, q in zip(x, y)])
            self.assertEqual((a * b).tolist(), [times(p, q) for p, q in zip(x, y)])
            self.assertEqual((a * b[0]).tolist(), [times(p, y[0]) for p in x])
            self.assertEqual(((a / b) * b).tolist(), x)
            self.assertEqual((a / b[0] * b[0]).tolist(), x)
            self.assertEqual((a[0] / b * b).tolist(), [x[0]] * len(y))
            self.assertRaises(ZeroDivisionError, lambda: b / a)
            self.assertEqual((a**5).tolist(), [definitions.chosen_power(modulus, p, 5) for p in x])
            self.assertEqual((b**-1 * b).tolist(), [1] * len(y))
            self.assertEqual((a.sqrt() ** 2).tolist(), x)
            self.assertEqual(a.prod(), 0)
            self.assertEqual(int(a.dot(b)), definitions.total(times(p, q) for p, q in zip(x, y)))
            self.assertEqual(a.inverse_or_zero()[5:7].tolist(), [0, 1])
            traces = [definitions.total(definitions.chosen_power(modulus, p, 1 << i) for i in range(field.degree)) for p in x]
            self.assertEqual(a.field_trace().tolist(), traces)
            a[1:] += b[1:]
            a[1:] *= b[1:]
            self.assertEqual(a.tolist(), x[:1] + [times(p ^ q, q) for p, q in zip(x[1:], y[1:])])

    def test_facts(self):
        for field, modulus, draw in self.fields():
            self.assertEqual((field.order, int(field.irreducible_poly)), (1 << field.degree, modulus))
            generator = field.primitive_element
            self.assertTrue(field.is_primitive_element(generator))
            self.assertFalse(any(field.is_primitive_element(it) for it in range(1, int(generator))))
            x = field([draw.getrandbits(field.degree) or 1 for _ in range(4)])
            if field.degree <= 33:
                self.assertTrue((generator ** x.log() == x).all())
            self.assertEqual((field.Vector(x.vector())).tolist(), x.tolist())
            self.assertEqual(int(field.evaluate(x[0].minimal_poly().coeffs.tolist()[::-1], x[0])), 0)
            self.assertEqual(field(bf.Gf2([0, 1])).tolist(), [0, 1])
            self.assertRaises(TypeError, field, bf.BinaryField8([1]))

    def test_embeddings(self):
        for degree, width in ((2, 8), (3, 12), (8, 16), (8, 64), (31, 31), (16, 64)):
            small, large, draw = bf.GF(2**degree), bf.GF(2**width), random.Random(degree)
            a, b = (small([draw.getrandbits(degree) for _ in range(20)]) for _ in range(2))
            image = large.embedded
            self.assertEqual(image(a + b).tolist(), (image(a) + image(b)).tolist())
            self.assertEqual(image(a * b).tolist(), (image(a) * image(b)).tolist())
            self.assertEqual(image(small([0, 1])).tolist(), [0, 1])
            self.assertEqual(len(set(image(a).tolist())), len(set(a.tolist())))
        self.assertRaises(ValueError, bf.GF(2**5).embedded, bf.GF(2**3)([1]))

    def test_embeddings_of_fixed_fields(self):
        """Each fixed field of up to 128 bits, from chosen ones and in them."""
        for fixed in (bf.BinaryField2, bf.BinaryField4, bf.BinaryField8, bf.BinaryField16, bf.BinaryField32, bf.BinaryField64, bf.BinaryField128,
                      bf.Rijndael8b, bf.Poly64, bf.Ghash128):
            draw = random.Random(fixed.degree)
            chosen = [bf.GF(2**degree) for degree in (2, 4, 8, 16, 32, 64) if not max(degree, fixed.degree) % min(degree, fixed.degree)]
            for other in chosen + [bf.GF(2**128, irreducible_poly=1 << 128 | 0xF9)]:
                small, large = (other, fixed) if other.degree <= fixed.degree else (fixed, other)
                if small is large:
                    continue
                a, b = (small([draw.getrandbits(small.degree) for _ in range(6)]) for _ in range(2))
                image = large.embedded
                self.assertEqual(image(a + b).tolist(), (image(a) + image(b)).tolist())
                self.assertEqual(image(a * b).tolist(), (image(a) * image(b)).tolist())
                self.assertEqual(image(small([0, 1])).tolist(), [0, 1])
                self.assertEqual(len(set(image(a).tolist())), len(set(a.tolist())))
                if large is other:
                    self.assertEqual(image(a).to_subfield(small).tolist(), a.tolist())
        self.assertRaises(TypeError, bf.Ghash128, bf.GF(2**8)([1]))

    def test_subfields(self):
        for degree, width in ((2, 8), (4, 12), (8, 16), (32, 64)):
            small, large, draw = bf.GF(2**degree), bf.GF(2**width), random.Random(width)
            x = large([draw.getrandbits(width) for _ in range(5)])
            conjugates = [x ** (1 << i) for i in range(0, width, degree)]
            self.assertEqual(large.embedded(x.field_trace(small)).tolist(), sum(conjugates[1:], conjugates[0]).tolist())
            self.assertEqual(large.embedded(x.field_norm(small)).tolist(), np.prod(np.stack(conjugates), axis=0).tolist())
            self.assertEqual(width // degree % x[0].minimal_poly(small).degree, 0)
            self.assertRaises(ValueError, large([2]).to_subfield, small)

    def test_matrices_and_polynomials(self):
        for field, _, draw in self.fields():
            matrix = field([[draw.getrandbits(field.degree) for _ in range(3)] for _ in range(3)])
            while np.linalg.det(matrix) == 0:
                matrix = field([[draw.getrandbits(field.degree) for _ in range(3)] for _ in range(3)])
            right = field([1, 0, 1])
            self.assertTrue((np.linalg.inv(matrix) @ matrix == field.Identity(3)).all())
            self.assertTrue((matrix @ np.linalg.solve(matrix, right) == right).all())
            self.assertEqual((np.linalg.matrix_rank(matrix), np.linalg.matrix_rank(matrix[:2])), (3, 2))
            self.assertEqual(np.linalg.det(field([[1, 1], [1, 1]])), 0)
            roots = field([1, field.order - 1])
            poly = bf.Poly.Roots(roots)
            self.assertEqual(sorted(poly.roots().tolist()), sorted(roots.tolist()))
            self.assertEqual(field.evaluate(poly.coeffs[::-1], roots).tolist(), [0, 0])

    def test_matrices_by_definitions(self):
        """Matrices with rows that are short and long, singular ones, and stacks of them."""
        for field, modulus, _ in self.fields():
            defined, flat = definitions.Modulo(field.degree, modulus), lambda it: it.ravel().tolist()
            for rows, inner, columns in ((2, 3, 4), (1, 1, 1), (3, 2, 40), (4, 1, 4)):
                a, b = field.random((rows, inner), seed=rows), field.random((inner, columns), seed=columns)
                self.assertEqual(flat(a @ b), defined.matrix_product(flat(a), flat(b), rows, inner, columns))
                form, pivots = defined.echelon(flat(a @ b), rows, columns)
                self.assertEqual((flat((a @ b).row_reduce()), int((a @ b).rank())), (form, len(pivots)))
            for size in (1, 2, 4, 9):
                a, right = field.random((size, size), seed=size), field.random(size, seed=size + 10)
                self.assertEqual(int(a.det()), defined.determinant(flat(a), size))
                inverse = defined.matrix_inverse(flat(a), size)
                if inverse is None:
                    self.assertRaises(np.linalg.LinAlgError, a.inv)
                else:
                    self.assertEqual(flat(a.inv()), inverse)
                    self.assertEqual(flat(np.linalg.solve(a, right)), defined.solution(flat(a), flat(right), size, size))
                self.assertRaises(np.linalg.LinAlgError, field.zeros((size, size)).inv)
            stack = field.random((40, 2, 2), seed=3)
            self.assertEqual(stack.det().tolist(), [int(it.det()) for it in stack])
            self.assertTrue(np.array_equal(stack @ stack, np.stack([it @ it for it in stack])))

    def test_one_class_for_the_same_arguments(self):
        field = bf.GF(2**8, irreducible_poly="x^8 + x^4 + x^3 + x^2 + 1")
        for other in (bf.GF(2, 8), bf.GF(256, irreducible_poly=0x11D), bf.GF(2, 8, irreducible_poly=bf.Poly.Int(0x11D)),
                      bf.GF(2**8, irreducible_poly=[1, 0, 0, 0, 1, 1, 1, 0, 1]), bf.GF(2**8, primitive_element="x"), pickle.loads(pickle.dumps(field))):
            self.assertIs(other, field)
        array = pickle.loads(pickle.dumps(field([[1, 2], [3, 4]])))
        self.assertEqual((type(array), array.tolist()), (field, [[1, 2], [3, 4]]))
        self.assertIs(bf.GF(2**8, irreducible_poly=0x11B), bf.Rijndael8b)
        self.assertIs(bf.GF(2**64, irreducible_poly=1 << 64 | 0x1B), bf.Poly64)
        self.assertIs(bf.GF(2**128, irreducible_poly=1 << 128 | 0x87), bf.Ghash128)
        self.assertIs(bf.GF(2), bf.Gf2)
        other = bf.GF(2**8, primitive_element=0x1D)
        self.assertIsNot(other, field)
        self.assertEqual((int(other.primitive_element), pickle.loads(pickle.dumps(other)) is other), (0x1D, True))
        self.assertRaises(TypeError, lambda: other([1]) + field([1]))

    def test_what_is_no_field(self):
        for wrong in ((2**4, 0b10101), (2**4, 0b111), (2**8, 0x101), (2**2, 0b100)):
            self.assertRaises(ValueError, bf.GF, wrong[0], irreducible_poly=wrong[1])
        for wrong in ((0,), (1,), (6,), (3, 2), (2, 0), (2, 129), (2**129,), (2**100,)):
            self.assertRaises(ValueError, bf.GF, *wrong)
        self.assertRaises(ValueError, bf.GF, 2**8, primitive_element=1)
        self.assertRaises(ValueError, bf.GF(2**3), [8])


if __name__ == "__main__":
    unittest.main()
