"""Tests of the Python package over a library with the functions by the carryless multiply instruction: check_hardware.py [none].

With `none` the library has none, or the machine has no such instruction: nothing changes there. AES-GCM and GMAC are those of OpenSSL's
libcrypto, where that is there.
"""

import ctypes
import ctypes.util
import random
import sys
import threading
import unittest
import warnings
from unittest import mock

import numpy as np

import binary_field as bf
from binary_field import _library

HAS_KERNELS = "none" not in sys.argv[1:]
LENGTHS = [0, 1, 2, 3, 4, 5, 8, 15, 16, 17, 33, 64, 257, 1000]


def results(field, length):
    """What the package computes of drawn arrays of a field, as one list of arrays."""
    a, b = field.random(length, seed=length), field.random(length, seed=length + 1)
    a[::5] = 0
    scalar = field.random(1, seed=7)[0]
    c = a.copy()
    c *= b
    d = a.copy()
    d.add_scaled(scalar, b)
    found = [a * b, a * scalar, d, a * a, c, a**5, a ** (2**64 - 1), a.inverse_or_zero(), np.dot(a, b).reshape(1)]
    return [*found, field.evaluate(a[:9], b), field.evaluate(b, a[:3])]


def stages(m):
    """Stages and transforms over 2^m elements, and low stages over as many runs."""
    a, b = bf.Ghash128.random(2**m, seed=m), bf.Ghash128.random(2**m, seed=m + 1)
    basis, shifts, scalar = bf.Ghash128.random(m + 9, seed=1), bf.Ghash128.random(4, seed=2), bf.Ghash128.random(1, seed=3)[0]
    runs = bf.Ghash128.random(16 * (m + 1), seed=4)
    found = [bf.transform(a, scalar), bf.inverse_transform(a, scalar), bf.transform(a), bf.low_stages(runs, shifts, basis, m)]
    for stage in (bf.butterfly_forward, bf.butterfly_inverse):
        stage(a, b, scalar)
        found += [a.copy(), b.copy()]
    return found


def hashes(length):
    """Hashes of a drawn message, whole and in pieces."""
    draw = random.Random(length)
    key, message = draw.randbytes(16), draw.randbytes(length)
    return [bf.ghash(key, message), bf.polyval(key, message), bf.gcm_ghash(key, message[: length // 3], message[length // 3 :])]


def pieces(length):
    """What hashes of a drawn message in pieces hold behind each of them, and their digests."""
    draw, found = random.Random(length), []
    for kind in (bf.Ghash, bf.Polyval):
        a_hash = kind(draw.randbytes(16), draw.randbytes(length))
        for act in (lambda: None, lambda: a_hash.update(draw.randbytes(length // 3)), a_hash.pad, lambda: a_hash.update(draw.randbytes(5))):
            act()
            found.append(a_hash._state.tobytes())
        found.append(a_hash.digest())
    return [*found, bf.Ghash(draw.randbytes(16), draw.randbytes(length)).gcm_digest(length, 2**61 - 1)]


class Switch(unittest.TestCase):
    """When arrays go by the instruction."""

    def tearDown(self):
        bf.hardware(False)

    def test_it_says_whether(self):
        self.assertEqual(bool(bf.hardware()), HAS_KERNELS)
        self.assertEqual(repr(bf.hardware()), f"<hardware: {'kernels' if HAS_KERNELS else 'proved functions'}>")
        self.assertFalse(bf.hardware(False))

    def test_what_was_before_comes_back(self):
        bf.hardware()
        with bf.hardware(False) as switch:
            self.assertFalse(switch)
            self.assertIs(_library._calls, _library._PROVED)
            with bf.hardware() as inner:
                self.assertEqual(bool(inner), HAS_KERNELS)
            self.assertIs(_library._calls, _library._PROVED)
        self.assertEqual(_library._calls is not _library._PROVED, HAS_KERNELS)
        with self.assertRaises(ZeroDivisionError), bf.hardware(False):
            bf.Ghash128(1) / bf.Ghash128(0)
        self.assertEqual(_library._calls is not _library._PROVED, HAS_KERNELS)

    @unittest.skipUnless(HAS_KERNELS, "the library has no kernels")
    def test_arrays_call_them(self):
        """Of arrays, single elements and elements of the tower; and of no other field."""
        called = []
        functions = {
            name: (lambda *given, name=name, function=function: called.append(name) or function(*given), parameters)
            for name, (function, parameters) in _library._KERNELS.called.items()
        }
        with mock.patch.object(_library._KERNELS, "called", functions), bf.hardware():
            for field in (bf.Ghash128, bf.Poly64, bf.BinaryField128, bf.BinaryField8):
                field([2, 3]) * field([4, 5])
        self.assertEqual(called, ["g128_multiply", "p64_multiply", "t128_multiply", "t8_multiply"])
        for name in ("g128_multiply", "p64_inverse", "t64_multiply_in_place", "tag_ghash", "tag_polyval_update", "g128_transform"):
            self.assertIsNot(_library._KERNELS.called[name][0], _library._PROVED.called[name][0], name)
        self.assertIs(_library._KERNELS.called["t8_multiply"][0], _library._PROVED.called["t8_multiply"][0])

    @unittest.skipUnless(HAS_KERNELS, "the library has no kernels")
    def test_a_difference_is_told(self):
        with mock.patch("binary_field._hardware.begin_kernels", return_value=33), warnings.catch_warnings(record=True) as told:
            warnings.simplefilter("always")
            self.assertFalse(bf.hardware())
        self.assertIn("differs from the proved one", str(told[0].message))
        self.assertIs(_library._calls, _library._PROVED)

    def test_threads(self):
        """Threads that switch while others compute get the same products."""
        a = bf.Ghash128.random(300, seed=1)
        want, wrong = a * a, []

        def compute(is_switching):
            for turn in range(200):
                if is_switching:
                    bf.hardware(turn % 2 == 0)
                elif not np.array_equal(a * a, want) or a[5] * a[5] != want[5]:
                    wrong.append(turn)

        threads = [threading.Thread(target=compute, args=(it == 0,)) for it in range(8)]
        for it in threads:
            it.start()
        for it in threads:
            it.join()
        self.assertEqual(wrong, [])


class Results(unittest.TestCase):
    """Results are the same either way."""

    def same(self, function, *arguments):
        with bf.hardware(False):
            want = function(*arguments)
        with bf.hardware():
            got = function(*arguments)
        for x, y in zip(want, got, strict=True):
            self.assertTrue(np.array_equal(x, y) if isinstance(x, bf.FieldArray) else x == y, (function.__name__, arguments))

    def test_arrays(self):
        for field in (bf.Ghash128, bf.Poly64, bf.BinaryField64, bf.BinaryField128):
            for length in LENGTHS:
                self.same(results, field, length)

    def test_stages(self):
        for m in range(13):
            self.same(stages, m)

    def test_hashes(self):
        for length in [*range(70), 127, 128, 129, 1000, 4097]:
            self.same(hashes, length)
            self.same(pieces, length)

    def test_pieces_go_on(self):
        """A message whose pieces go by one and by the other in turn."""
        message = random.Random(1).randbytes(1000)
        for kind, whole in ((bf.Ghash, bf.ghash), (bf.Polyval, bf.polyval)):
            for step in (1, 7, 16, 30, 250):
                for first in (False, True):
                    with bf.hardware(first):
                        a_hash = kind(b"sixteen byte key")
                    for at in range(0, 1000, step):
                        with bf.hardware(at // step % 2 == first):
                            a_hash.update(message[at : at + step])
                    with bf.hardware(first):
                        self.assertEqual(a_hash.digest(), whole(b"sixteen byte key", message), (kind, step))


class OpenSSL:
    """AES of 128 bits by libcrypto."""

    def __init__(self, library):
        self.library = library
        for name in ("EVP_CIPHER_CTX_new", "EVP_aes_128_gcm", "EVP_aes_128_ecb"):
            getattr(library, name).restype = ctypes.c_void_p

    def encrypt(self, cipher, key, nonce, associated, plain):
        """The ciphertext, and the tag of GCM."""
        lib, length = self.library, ctypes.c_int()
        context = ctypes.c_void_p(lib.EVP_CIPHER_CTX_new())
        out, tag = ctypes.create_string_buffer(len(plain) + 32), ctypes.create_string_buffer(16)
        assert lib.EVP_EncryptInit_ex(context, ctypes.c_void_p(cipher), None, key, nonce) == 1
        if associated:
            assert lib.EVP_EncryptUpdate(context, None, ctypes.byref(length), associated, len(associated)) == 1
        if plain:
            assert lib.EVP_EncryptUpdate(context, out, ctypes.byref(length), plain, len(plain)) == 1
        if nonce:
            lib.EVP_EncryptFinal_ex(context, ctypes.create_string_buffer(32), ctypes.byref(length))
            assert lib.EVP_CIPHER_CTX_ctrl(context, 0x10, 16, tag) == 1
        lib.EVP_CIPHER_CTX_free(context)
        return out.raw[: len(plain)], tag.raw

    def block(self, key, block):
        """AES of one block."""
        return self.encrypt(self.library.EVP_aes_128_ecb(), key, None, b"", block)[0]

    def gcm(self, key, nonce, associated, plain):
        """The ciphertext and the tag of AES-GCM; the tag of no plain text is that of GMAC."""
        return self.encrypt(self.library.EVP_aes_128_gcm(), key, nonce, associated, plain)


class Tags(unittest.TestCase):
    """Tags of AES-GCM and GMAC by GHASH, beside those of OpenSSL."""

    def test_tags(self):
        name = ctypes.util.find_library("crypto")
        if name is None:
            self.skipTest("there is no libcrypto")
        openssl, draw = OpenSSL(ctypes.CDLL(name)), random.Random(77)
        with bf.hardware():
            for length in [0, 1, 15, 16, 17, 31, 64, 127, 128, 129, 1000, 5000]:
                for associated_length in (0, 1, 16, 20, 300):
                    key, nonce = draw.randbytes(16), draw.randbytes(12)
                    associated, plain = draw.randbytes(associated_length), draw.randbytes(length)
                    ciphertext, tag = openssl.gcm(key, nonce, associated, plain)
                    hashed = bf.gcm_ghash(openssl.block(key, bytes(16)), associated, ciphertext)
                    mask = openssl.block(key, nonce + bytes([0, 0, 0, 1]))
                    self.assertEqual(bytes(x ^ y for x, y in zip(hashed, mask)), tag)
                    in_pieces = bf.Ghash(openssl.block(key, bytes(16)), associated)
                    in_pieces.pad()
                    for at in range(0, length, 30):
                        in_pieces.update(ciphertext[at : at + 30])
                    self.assertEqual(in_pieces.gcm_digest(associated_length, length), hashed)


if __name__ == "__main__":
    unittest.main(argv=sys.argv[:1])
