"""Tests of the Python package's codes over fields that a caller chooses, and of its BCH codes, against the definitions: check_code_words.py.

The package is the one that Python finds, as in PYTHONPATH=python BINARY_FIELD_LIBRARY=FOLDER/lib.
"""

import pickle
import random
import unittest

import definitions
import numpy as np

import binary_field as bf

# Generator polynomials of binary BCH codes in octal digits, as tables of books have them: bits of a word and of its data, and errors. That for
# one error is the modulus of the field; `generator_of` makes each anew.
GENERATORS = [
    (7, 4, 1, "13"), (15, 11, 1, "23"), (15, 7, 2, "721"), (15, 5, 3, "2467"), (31, 26, 1, "45"), (31, 21, 2, "3551"), (31, 16, 3, "107657"),
    (31, 11, 5, "5423325"), (31, 6, 7, "313365047"), (63, 57, 1, "103"), (63, 51, 2, "12471"), (63, 45, 3, "1701317"), (63, 39, 4, "166623567"),
    (127, 120, 1, "211"), (127, 113, 2, "41567"), (127, 106, 3, "11554743"), (255, 247, 1, "435"), (255, 239, 2, "267543"),
]


def order_of(modulus, element):
    """The least exponent above 0 for which a power is 1."""
    exponent, power = 1, element
    while power != 1:
        exponent, power = exponent + 1, definitions.code_product(modulus, power, element)
    return exponent


def generator_of(modulus, n, alpha, t):
    """The product of x + r over the elements r that are alpha, alpha**2, .., alpha**(2 t) or squares of these, squared again and so on."""
    powers = [1]
    while len(powers) < n:
        powers.append(definitions.code_product(modulus, powers[-1], alpha))
    product = [1]
    exponents = {(exponent << doublings) % n for exponent in range(1, 2 * t + 1) for doublings in range(modulus.bit_length())}
    for exponent in exponents:
        product = [a ^ definitions.code_product(modulus, powers[exponent], b) for a, b in zip([*product, 0], [0, *product])]
    assert set(product) <= {0, 1}
    return int("".join(map(str, product)), 2)


class FieldCodes(unittest.TestCase):
    """Codes over fields of 2^2 to 2^16 elements."""

    def codes(self):
        """Codes with the numbers of their definitions."""
        for n, k, c, field, alpha in (
            (40, 32, 0, 0x1100B, None), (30, 24, 1, 0x1053, None), (15, 9, 1, 0x13, None), (9, 4, 3, 0x1100B, 0xABCD), (26, 16, 0, 0x11D, 4),
            (3, 1, 0, 7, None), (12, 7, 1, 0x12D, None),
        ):
            bits = field.bit_length() - 1
            code = bf.CorrectingCode(n, k, c=c, field=field, alpha=alpha)
            root = int(bf.GF(2**bits, irreducible_poly=field).primitive_element) if alpha is None else alpha
            yield code, bits, (field, n, k, c, root)

    def test_words_are_those_of_the_definitions(self):
        draw = random.Random(5)
        for code, bits, numbers in self.codes():
            field, n, k = numbers[:3]
            roots = definitions.field_code_roots(*numbers)
            data = [[[draw.getrandbits(bits) for _ in range(k)] for _ in range(3)] for _ in range(2)]
            words = code.encode(data)
            self.assertEqual(words.dtype, np.uint8 if bits <= 8 else np.uint16)
            self.assertEqual(words.tolist(), [[definitions.word_with_roots(field, roots, it) for it in row] for row in data])
            self.assertEqual(code.encode(np.array(data), output="parity").tolist(), words[..., k:].tolist())
            columns = code.encode(np.moveaxis(np.array(data), -1, 0), axis=0)
            self.assertEqual(np.moveaxis(columns, 0, -1).tolist(), words.tolist())
            self.assertFalse(code.detect(words).any())
            words[1, 2, 0] ^= 1
            columns[0, 1, 2] ^= 1
            self.assertEqual(code.detect(words).tolist(), [[False] * 3, [False, False, True]])
            self.assertEqual(code.detect(columns, axis=0).tolist(), [[False] * 3, [False, False, True]])
            self.assertEqual(code.syndromes(words)[1, 2].tolist(), [definitions.code_value(field, words[1, 2].tolist(), it) for it in roots])
            self.assertEqual(code.syndromes(columns, axis=0)[:, 1, 2].tolist(), code.syndromes(words)[1, 2].tolist())
            self.assertEqual((code.roots.tolist(), code.alpha, code.field), (roots, numbers[4], field))
            if k > 2:
                short = code.encode(data[0][0][:2])
                self.assertEqual(code.encode([0] * (k - 2) + data[0][0][:2])[k - 2 :].tolist(), short.tolist())
            self.assertEqual(pickle.loads(pickle.dumps(code)).encode(data).tolist(), code.encode(data).tolist())
            kind = bf.GF(2**bits, irreducible_poly=field)
            self.assertFalse((kind(code.G) @ kind(code.H).T).any())
            self.assertEqual(code.is_primitive, order_of(field, code.alpha) == 2**bits - 1)

    def test_many_words_and_few(self):
        # Many words over bytes go by the calls of words that stand interleaved.
        draw = np.random.default_rng(10)
        for code in (bf.CorrectingCode.qr(26, 16), bf.CorrectingCode(20, 12, c=3, field=0x187)):
            n, t = code.n, code.t
            data = draw.integers(0, 256, (5, 40, code.k), np.uint8)
            words = code.encode(data)
            self.assertEqual(words.tolist(), [[code.encode(it).tolist() for it in row] for row in data])
            self.assertFalse(code.detect(words).any())
            for at in np.ndindex(5, 40):
                places = draw.choice(n, draw.integers(0, t + 2), replace=False)
                words[at][places] ^= draw.integers(1, 256, places.size, np.uint8)
            self.assertEqual(code.detect(words).tolist(), [[bool(code.detect(it)) for it in row] for row in words])
            self.assertEqual(code.syndromes(words).tolist(), [[code.syndromes(it).tolist() for it in row] for row in words])
            found, changed = code.decode(words, "codeword", errors=True)
            for at in np.ndindex(5, 40):
                own, count = code.decode(words[at], "codeword", errors=True)
                self.assertEqual((found[at].tolist(), changed[at]), (own.tolist(), count))

    def test_cyclic_codes(self):
        for n, k, field, alpha in ((15, 9, 0x13, None), (3, 1, 7, None), (255, 223, 0x11D, None), (85, 60, 0x11B, 15), (5, 2, 0x13, 8)):
            code = bf.CorrectingCode(n, k, c=3, field=field, alpha=alpha)
            kind = bf.GF(1 << field.bit_length() - 1, irreducible_poly=field)
            product = bf.Poly(kind(code.parity_check_poly)) * bf.Poly(kind(code.generator_poly))
            self.assertEqual(product, bf.Poly([1, *[0] * (n - 1), 1], kind), (n, k))
        with self.assertRaisesRegex(ValueError, "cyclic"):
            bf.CorrectingCode(14, 9, field=0x13).parity_check_poly

    def test_words_are_corrected(self):
        draw = random.Random(6)
        for code, bits, (_, n, k, _, _) in self.codes():
            sent = code.encode([[[draw.getrandbits(bits) for _ in range(k)] for _ in range(3)] for _ in range(2)])
            words, erased = sent.copy(), np.zeros(sent.shape, bool)
            for at in np.ndindex(2, 3):
                lost = draw.randrange(n - k + 1)
                places = draw.sample(range(n), lost + (n - k - lost) // 2)
                words[at][places] ^= draw.randrange(1, 1 << bits)
                erased[at][places[:lost]] = True
            data, changed = code.decode(words, errors=True, erasures=erased)
            self.assertEqual(data.tolist(), sent[..., :k].tolist())
            self.assertEqual(changed.tolist(), (words != sent).sum(axis=-1).tolist())
            # Columns, of which the same symbols are erased.
            rows = np.arange(n) < n - k
            turned = np.moveaxis(np.where(rows, sent ^ 1, sent), -1, 0)
            self.assertEqual(np.moveaxis(code.decode(turned, "codeword", erasures=rows, axis=0), 0, -1).tolist(), sent.tolist())
            # One symbol more is erased than can be.
            rows = np.arange(n) <= n - k
            self.assertEqual(code.decode(sent, errors=True, erasures=rows)[1].tolist(), [[-1] * 3] * 2)

    def test_fields_by_their_classes(self):
        for kind in (bf.GF(2**16, irreducible_poly=0x1100B), bf.GF(2**4), bf.GF(2**8, irreducible_poly=0x12D)):
            by_class, by_modulus = (bf.CorrectingCode(9, 5, field=it) for it in (kind, int(kind.irreducible_poly)))
            self.assertEqual(by_class.encode([1, 2, 3]).tolist(), by_modulus.encode([1, 2, 3]).tolist())
            self.assertEqual(by_class.encode(kind([1, 2, 3])).tolist(), by_class.encode([1, 2, 3]).tolist())
        # Bytes with calls of their own give what the calls of any field do.
        for kind, generator in ((0x11B, 3), (0x11D, 2), (0x187, 2)):
            own, other = bf.CorrectingCode(20, 12, field=kind), bf.CorrectingCode(20, 12, field=kind, alpha=generator)
            self.assertEqual((own.alpha, own.encode(b"the data").tolist()), (generator, other.encode(b"the data").tolist()))
            self.assertNotEqual(repr(own), repr(other))
        # A class says which element it is whose powers the roots are.
        self.assertEqual(bf.CorrectingCode(20, 12, field=bf.Rijndael8b).alpha, int(bf.Rijndael8b.primitive_element))
        other = bf.GF(2**8, irreducible_poly=0x11D, primitive_element=4)
        self.assertEqual(bf.CorrectingCode(20, 12, field=other).alpha, 4)
        self.assertEqual(bf.CorrectingCode(9, 5, field=0x13, root_step=2).alpha, 4)

    def test_what_is_no_code_is_refused(self):
        for n, k, field in ((16, 9, 0x13), (5, 5, 0x13), (5, 0, 0x13), (65536, 9, 0x1100B), (5, 3, 3), (5, 3, 0x15), (5, 3, 1 << 17 | 9), (5, 3, 0)):
            self.assertRaises(ValueError, bf.CorrectingCode, n, k, field=field)
        for kind in (bf.BinaryField8, bf.Gf2, bf.Poly64, int):
            self.assertRaises(ValueError, bf.CorrectingCode, 5, 3, field=kind)
        for alpha in (0, 1, 16):
            self.assertRaises(ValueError, bf.CorrectingCode, 5, 3, field=0x13, alpha=alpha)
        code = bf.CorrectingCode(5, 3, field=0x13)
        for data in ([], [16], [1, 2, 3, 4], [-1], [0.5]):
            self.assertRaises(ValueError, code.encode, data)
        self.assertRaises(ValueError, code.decode, [1, 2, 3, 4, 16])


class BinaryCodes(unittest.TestCase):
    """Binary BCH codes."""

    def test_generator_polynomials_are_those_of_tables(self):
        moduli = {n: int(digits, 8) for n, _, t, digits in reversed(GENERATORS) if t == 1}
        for n, k, t, digits in GENERATORS:
            kind = bf.GF(n + 1, irreducible_poly=moduli[n])
            own = [] if n in (63, 127) else [bf.BCH(n, k), bf.BCH(n, d=2 * t + 1), bf.BCH(n, d=2 * t)]
            for code in (*own, bf.BCH(n, k, extension_field=kind)):
                self.assertEqual((code.n, code.k, code.d, code.t), (n, k, 2 * t + 1, t))
                self.assertEqual(int(code.generator_poly), int(digits, 8), (n, k))
            self.assertEqual(generator_of(moduli[n], n, 2, t), int(digits, 8), (n, k))
            self.assertEqual((code.c, code.is_systematic, code.is_narrow_sense, code.is_primitive), (1, True, True, True))

    def test_what_belongs_to_a_code(self):
        other = bf.GF(2**8, irreducible_poly=0x12D)
        for code in (
            bf.BCH(7, 4), bf.BCH(15, 5), bf.BCH(5, 1), bf.BCH(9, 1), bf.BCH(17, 9), bf.BCH(21, 6), bf.BCH(51, d=5), bf.BCH(63, 45), bf.BCH(85, d=9),
            bf.BCH(15, 7, extension_field=other), bf.BCH(15, 7, extension_field=bf.Rijndael8b), bf.BCH(31, 21, alpha=4), bf.BCH(255, d=7),
        ):
            kind, n, t = code.extension_field, code.n, code.t
            modulus = int(kind.irreducible_poly)
            powers = [definitions.code_power(modulus, exponent, code.alpha) for exponent in range(n + 1)]
            self.assertEqual((len(set(powers)), powers[n]), (n, 1))
            self.assertEqual(int(code.generator_poly), generator_of(modulus, n, code.alpha, t), code)
            self.assertEqual(code.roots.tolist(), powers[1 : 2 * t + 1])
            self.assertEqual(code.H.tolist(), [[powers[row * (n - 1 - place) % n] for place in range(n)] for row in range(1, 2 * t + 1)])
            self.assertFalse((kind(code.H) @ kind(code.G.T)).any())
            self.assertEqual(code.parity_check_poly * code.generator_poly, bf.Poly.Int(1 << n | 1, bf.Gf2))
            self.assertEqual((code.field, code.is_primitive), (bf.Gf2, n + 1 == kind.order))
            words = code.encode(np.eye(code.k, dtype=int))
            self.assertFalse(bf.BCH(n, code.k, extension_field=kind, alpha=code.alpha).detect(words).any())
        self.assertIs(bf.BCH(15, 7).extension_field, bf.GF(2**4))
        for alpha in (0, 1, 3, 16):
            self.assertRaises(ValueError, bf.BCH, 15, 7, extension_field=bf.GF(2**8, irreducible_poly=0x11D), alpha=alpha)

    def test_both_ways_to_compute_agree(self):
        draw = random.Random(7)
        for n, t in ((15, 2), (17, 2), (51, 3), (85, 4), (255, 10)):
            one, other = bf._bch._BitCalls(n, t), bf._bch._WordCalls(n, t, *bf._bch._root_of(n, None, None))
            self.assertEqual(one.k, other.k)
            data = np.array([[draw.getrandbits(1) for _ in range(n)] for _ in range(9)], np.uint8)
            words, others = data.copy(), data.copy()
            one.encode(words)
            other.encode(others)
            self.assertEqual(words.tolist(), others.tolist())
            words ^= np.array([[draw.random() < t / n for _ in range(n)] for _ in range(9)], np.uint8)
            others[...] = words
            self.assertEqual(one.are_words(words).tolist(), other.are_words(words).tolist())
            self.assertEqual(one.correct(words, None).tolist(), other.correct(others, None).tolist())
            self.assertEqual(words.tolist(), others.tolist())

    def test_words_are_corrected(self):
        draw = random.Random(8)
        for n, t in ((7, 1), (15, 3), (31, 5), (51, 2), (63, 10), (73, 4), (127, 9), (255, 18), (1023, 20)):
            code = bf.BCH(n, d=2 * t + 1)
            self.assertGreaterEqual(code.t, t)
            self.assertEqual(code.G.shape, (code.k, n))
            for count in sorted({1, code.k // 2 + 1, code.k}):
                data = [[draw.getrandbits(1) for _ in range(count)] for _ in range(4)]
                sent = code.encode(data)
                size = sent.shape[-1]
                self.assertEqual(sent[:, :count].tolist(), data)
                self.assertEqual(code.encode(data, "parity").tolist(), sent[:, count:].tolist())
                self.assertFalse(code.detect(sent).any())
                words, erased = sent.copy(), np.zeros(sent.shape, bool)
                for at in range(4):
                    lost = draw.randrange(2 * code.t + 1)
                    places = draw.sample(range(size), min(size, lost + (2 * code.t - lost) // 2))
                    words[at][places] ^= 1
                    erased[at][places[:lost]] = True
                data_found, changed = code.decode(words, errors=True, erasures=erased)
                self.assertEqual(data_found.tolist(), data)
                self.assertEqual(changed.tolist(), (words != sent).sum(axis=-1).tolist())
                self.assertEqual(code.decode(words, "codeword", erasures=erased).tolist(), sent.tolist())
            words = sent.copy()
            words[:, 0] ^= 1
            self.assertTrue(code.detect(words).all())
            self.assertEqual(code.decode(words[0], errors=True)[1], 1)
            self.assertEqual(pickle.loads(pickle.dumps(code)).decode(words).tolist(), data)

    def test_every_word_of_short_codes(self):
        # What is near to no word of the code stays, also where a word with other symbols is near.
        for n, k in ((7, 4), (15, 5), (15, 1), (9, 1), (21, 6)):
            code, draw = bf.BCH(n, k), random.Random(9)
            words = code.encode([[it >> place & 1 for place in range(code.k)] for it in range(1 << code.k)])
            received = np.array([[draw.getrandbits(1) for _ in range(n)] for _ in range(200)], np.uint8)
            found, changed = code.decode(received, "codeword", errors=True)
            distances = (received[:, np.newaxis] != words).sum(axis=-1)
            for at in range(200):
                near = int(distances[at].min())
                if near <= code.t:
                    self.assertEqual((changed[at], found[at].tolist()), (near, words[distances[at].argmin()].tolist()))
                else:
                    self.assertEqual((changed[at], found[at].tolist()), (-1, received[at].tolist()))

    def test_what_is_no_code_or_no_word_is_refused(self):
        for n, k in ((15, 8), (15, 0), (15, 15), (16, 8), (1, 1), (14, 7), (131073, 5)):
            self.assertRaises(ValueError, bf.BCH, n, k)
        for n, d in ((15, 1), (15, 16), (7, 8), (15, -3)):
            self.assertRaises(ValueError, bf.BCH, n, d=d)
        for kind in (bf.GF(2**5), bf.GF(2**20), bf.Gf2, bf.BinaryField4):
            self.assertRaises(ValueError, bf.BCH, 15, 7, extension_field=kind)
        self.assertRaises(ValueError, bf.BCH, 15)
        self.assertRaises(ValueError, bf.BCH, 15, 7, 5)
        for code in (bf.BCH(15, 7), bf.BCH(31, 21)):
            for data in ([], [2], [0] * 22, [-1], [0.5]):
                self.assertRaises(ValueError, code.encode, data)
            self.assertRaises(ValueError, code.encode, [1], output="word")
            self.assertRaises(ValueError, code.decode, [0] * 15, output="word")
            for words in ([0] * 8, [0] * 32, [2] * 15):
                self.assertRaises(ValueError, code.detect, words)
        self.assertEqual(bf.BCH(15, 7).encode(bf.Gf2([1, 0])).tolist(), bf.BCH(15, 7).encode([True, False]).tolist())


if __name__ == "__main__":
    unittest.main()
