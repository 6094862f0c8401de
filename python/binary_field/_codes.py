"""Reed-Solomon codes that correct errors, with the names of galois."""

from __future__ import annotations

import operator
from typing import Any

import numpy as np

from ._chosen import GF, ChosenField
from ._code_calls import BYTES, ByteCalls, Calls, FieldCalls, resized, symbols_of
from ._fields import Rijndael8b
from ._library import Words

# What a call takes of an integer: a number of 64 bits.
_END = 1 << 64


def _axis(axis: int) -> int:
    """The axis of words: the last, or the first for words that stand interleaved."""
    axis = operator.index(axis)
    if axis not in (-1, 0):
        raise ValueError("words stand in the last axis, -1, or in the first, 0")
    return axis


def _front(axis: int, count: int, behind: bool = False) -> Any:
    """What takes so many symbols of each word, or those behind them."""
    taken = slice(count, None) if behind else slice(count)
    return taken if axis == 0 else (..., taken)


def modulus_of(field: Any) -> int:
    """The modulus of a field, an integer itself or a class of arrays over a field modulo a polynomial."""
    if not isinstance(field, type):
        return operator.index(field)
    if getattr(field, "degree", 0) < 2 or field not in (Rijndael8b,) and not issubclass(field, ChosenField):
        raise ValueError(f"a code is over a field modulo a polynomial, as bf.GF makes it, and {field.__name__} is none")
    return int(getattr(field, "irreducible_poly"))


def _generator_of(field: Any, modulus: int) -> int:
    """The element whose powers the roots are for the step 1: what a class names, or what standards and `GF` do."""
    if isinstance(field, type):
        return int(getattr(field, "primitive_element"))
    return BYTES.get(modulus) or int(_kind(modulus).primitive_element)


def _kind(modulus: int) -> Any:
    """The class of arrays over the field with a modulus."""
    return GF(1 << modulus.bit_length() - 1, irreducible_poly=modulus)


def calls_of(field: Any, c: int, root_step: int, alpha: Any) -> Calls:
    """The calls of a code over a field, by its first root and by the step of its roots, or by the element whose powers they are."""
    modulus = modulus_of(field)
    if modulus in BYTES and alpha is None and _generator_of(field, modulus) == BYTES[modulus]:
        return ByteCalls(modulus, c, root_step)
    if not 3 < modulus < 1 << 17:
        raise ValueError("a code is over a field of 2**2 to 2**16 elements")
    root = int(alpha) if alpha is not None else int(_kind(modulus)(_generator_of(field, modulus)) ** root_step)
    return FieldCalls(modulus, c, root)


class CorrectingCode:
    """A Reed-Solomon code that corrects errors: words of `n` symbols, of which the first `k` are data. `ReedSolomon` is another code, which
    restores what is known to be lost.

    The first symbol is the coefficient of the highest power, and a word is one of the code where its polynomial is 0 at each of n - k roots:
    the powers root_step * c, root_step * (c + 1), .. of the field's generator, or the powers c, c + 1, .. of `alpha`. The field is given by
    its modulus, as an integer whose bit i is that of x^i, or by its class: any of 2**2 to 2**16 elements, with words shorter than it has
    elements. Three fields of bytes have calls of their own, which are faster: 0x11d (QR codes, DVB) and 0x187 (CCSDS) with the generator 2,
    and 0x11b (AES) with 3. Instead of `k` there may be the minimum distance `d`, which is n - k + 1. Calls take one word, or arrays of words
    in their last axis, and return arrays of integers of 8 bits, or 16 where the field has more than 256 elements; with axis=0 words are the
    columns of an array, as they stand interleaved, which over bytes is faster for many words. A word may be shortened: then it lacks symbols
    of data at its front.

    >>> code = bf.CorrectingCode(15, 9, c=1, field=0x11d)
    >>> code.n, code.k, code.d, code.t
    (15, 9, 7, 3)
    >>> words = code.encode([b"some data", b"more data"])
    >>> words[0].tobytes()[:9], words.shape
    (b'some data', (2, 15))
    >>> words[1, 4] ^= 1
    >>> code.detect(words).tolist()
    [False, True]
    >>> code.encode(b"short").shape
    (11,)
    """

    def __init__(
        self, n: int, k: int | None = None, d: int | None = None, *, c: int = 1, root_step: int = 1, field: Any = 0x11D, alpha: Any = None,
    ) -> None:
        self._n, self._c, self._step = (operator.index(it) for it in (n, c, root_step))
        if k is not None and d is None:
            self._k = operator.index(k)
        elif d is not None and k is None:
            self._k = self._n + 1 - operator.index(d)
        else:
            raise ValueError("expected k or d, and not both")
        if not all(0 <= it < _END for it in (self._n, self._k, self._c, self._step)):
            raise ValueError("no code has a number below 0, or of more than 64 bits")
        self._calls = calls_of(field, self._c, self._step, alpha)
        if not 0 < self._k < self._n <= self._calls.most:
            raise ValueError(f"a code has symbols of data and others, {self._calls.most} together at most")
        # This tells whether there is such a code.
        self._calls.encode(np.empty((0, self._n), self._calls.dtype), self._n - self._k, -1)

    @classmethod
    def ccsds_223(cls) -> CorrectingCode:
        """The code of telemetry, with 223 symbols of data in words of 255 (CCSDS 131.0-B, section 4), over bytes in the basis of powers of x.

        >>> bf.CorrectingCode.ccsds_223()
        CorrectingCode(255, 223, c=112, root_step=11, field=0x187)
        """
        return cls(255, 223, c=112, root_step=11, field=0x187)

    @classmethod
    def dvb_188(cls) -> CorrectingCode:
        """The code of DVB, with 188 symbols of data in words of 204 (ETSI EN 300 421, section 4.4.2).

        >>> bf.CorrectingCode.dvb_188().t
        8
        """
        return cls(204, 188, c=0)

    @classmethod
    def qr(cls, n: int, k: int) -> CorrectingCode:
        """The code of a block of a QR code (ISO/IEC 18004, section 7.5).

        >>> bf.CorrectingCode.qr(26, 16).encode(bytes.fromhex("10200c566180ec11ec11ec11ec11ec11"))[16:].tobytes().hex()
        'a524d4c1ed36c7872c55'
        """
        return cls(n, k, c=0)

    @property
    def n(self) -> int:
        """How many symbols a word has."""
        return self._n

    @property
    def k(self) -> int:
        """How many symbols of a word are data."""
        return self._k

    @property
    def d(self) -> int:
        """At how many places two words of the code differ at least."""
        return self._n - self._k + 1

    @property
    def t(self) -> int:
        """How many errors, wherever they are, leave one word of the code that is nearest."""
        return (self._n - self._k) // 2

    @property
    def c(self) -> int:
        """The exponent of the first root, which is that power of the second one over the first."""
        return self._c

    @property
    def root_step(self) -> int:
        """The exponent of the field's generator from one root to the next."""
        return self._step

    @property
    def field(self) -> int:
        """The modulus of the field."""
        return self._calls.modulus

    @property
    def is_systematic(self) -> bool:
        """Whether a word begins with its data, which is so."""
        return True

    @property
    def is_narrow_sense(self) -> bool:
        """Whether c is 1."""
        return self._c == 1

    @property
    def roots(self) -> Words:
        """The roots, each the value of x at itself.

        >>> bf.CorrectingCode(15, 9, c=1).roots.tolist()
        [2, 4, 8, 16, 32, 64]
        """
        return self.syndromes([*[0] * (self._n - 2), 1, 0])

    @property
    def generator_poly(self) -> Words:
        """The coefficients of the product of x + r over the roots r, that of the highest power first: the word with 1 as its only data.

        >>> bf.CorrectingCode(5, 3, c=1).generator_poly.tolist()
        [1, 6, 8]
        """
        return self.encode([1])

    @property
    def parity_check_poly(self) -> Words:
        """The coefficients of the quotient of x**n + 1 and the generator polynomial, that of the highest power first: the product of x + r over
        the powers r of alpha that are no roots. It is there where alpha has the order n, so that words stay words when they are turned round.

        >>> bf.CorrectingCode(3, 1, c=1, field=7).parity_check_poly.tolist()
        [1, 1]
        """
        if int(_kind(self.field)(self.alpha) ** self._n) != 1:
            raise ValueError(f"alpha has not the order {self._n}, so that the code is not cyclic")
        alpha = self.alpha if isinstance(self._calls, FieldCalls) else None
        rest = self._n - self._k
        return CorrectingCode(self._n, rest, c=self._c + rest, root_step=self._step, field=self.field, alpha=alpha).generator_poly

    @property
    def is_primitive(self) -> bool:
        """Whether alpha is a primitive element of the field: each element but 0 is one of its powers.

        >>> bf.CorrectingCode.ccsds_223().is_primitive, bf.CorrectingCode(5, 3, root_step=5).is_primitive
        (True, False)
        """
        return bool(_kind(self.field).is_primitive_element(self.alpha))

    @property
    def alpha(self) -> int:
        """The element whose powers c, c + 1, .. are the roots.

        >>> bf.CorrectingCode.ccsds_223().alpha
        173
        """
        if isinstance(self._calls, FieldCalls):
            return self._calls.root
        return int(CorrectingCode(2, 1, c=1, root_step=self._step, field=self.field).roots[0])

    @property
    def G(self) -> Words:
        """The generator matrix: its rows are the words with one symbol of data that is 1, and data times it is their word.

        >>> bf.CorrectingCode(5, 3).G.tolist()
        [[1, 0, 0, 120, 224], [0, 1, 0, 28, 48], [0, 0, 1, 6, 8]]
        """
        return self.encode(np.eye(self._k, dtype=self._calls.dtype))

    @property
    def H(self) -> Words:
        """The parity-check matrix: a row for each root has its powers, and the matrix times a word is its syndromes.

        >>> bf.CorrectingCode(5, 3).H.tolist()
        [[16, 8, 4, 2, 1], [29, 64, 16, 4, 1]]
        """
        return np.ascontiguousarray(self.syndromes(np.eye(self._n, dtype=self._calls.dtype)).T)

    def __repr__(self) -> str:
        roots = f"alpha={self.alpha:#x}" if isinstance(self._calls, FieldCalls) else f"root_step={self.root_step}"
        return f"CorrectingCode({self.n}, {self.k}, c={self.c}, {roots}, field={self.field:#x})"

    def encode(self, message: Any, output: str = "codeword", axis: int = -1) -> Words:
        """The words with these data, k symbols or fewer; with output="parity" only what stands behind the data.

        >>> bf.CorrectingCode(5, 3).encode([[1, 2, 3], [0, 0, 1]], output="parity").tolist()
        [[74, 152], [6, 8]]
        >>> bf.CorrectingCode(5, 3).encode([[1, 0], [2, 0], [3, 1]], output="parity", axis=0).tolist()
        [[74, 6], [152, 8]]
        """
        if output not in ("codeword", "parity"):
            raise ValueError('output is "codeword" or "parity"')
        data, axis = symbols_of(message, self._calls.dtype, self._calls.bits), _axis(axis)
        if not data.ndim or not 0 < data.shape[axis] <= self._k:
            raise ValueError(f"expected 1 to {self._k} symbols of data in axis {axis}")
        count = data.shape[axis]
        words = np.zeros(resized(data.shape, axis, count + self._n - self._k), self._calls.dtype)
        words[_front(axis, count)] = data
        self._calls.encode(words, self._n - self._k, axis)
        if output == "codeword":
            return words
        return np.array(words[_front(axis, count, behind=True)])

    def syndromes(self, codeword: Any, axis: int = -1) -> Words:
        """The values of words at the roots, in the same axis: all 0 for a word of the code.

        >>> bf.CorrectingCode(5, 3).syndromes([0, 0, 0, 1, 0]).tolist()
        [2, 4]
        """
        axis = _axis(axis)
        return self._calls.syndromes(self._words(codeword, axis), self._n - self._k, axis)

    def detect(self, codeword: Any, axis: int = -1) -> Any:
        """Whether words have errors that are seen: those that are no words of the code. Fewer than d errors are always seen.

        >>> code = bf.CorrectingCode(5, 3)
        >>> code.detect(code.encode([1, 2, 3])), code.detect([1, 2, 3, 74, 153])
        (False, True)
        """
        axis = _axis(axis)
        flags = self._calls.are_words(self._words(codeword, axis), self._n - self._k, axis)
        return ~flags if flags.ndim else not flags

    def decode(self, codeword: Any, output: str = "message", errors: bool = False, erasures: Any = None, axis: int = -1) -> Any:
        """The data of words, corrected where they are near enough to a word of the code: where they differ from one at t places beside e erased
        ones, and 2 t + e is at most n - k. With output="codeword" it is that word. `erasures` has True for each symbol that is erased, whatever
        is read there; with axis=0 it is one for each row, which is erased in every word. A word that is near to none stays as it is. With
        errors=True also how many symbols of each changed, and -1 where none is near.

        >>> code = bf.CorrectingCode(15, 9)
        >>> word = code.encode(b"some data")
        >>> word[[1, 5, 13]] ^= 7
        >>> code.decode(word).tobytes(), code.decode(word, errors=True)[1]
        (b'some data', 3)
        >>> lost = [place < 6 for place in range(15)]
        >>> word = code.encode(b"some data")
        >>> word[:6] = 0
        >>> code.decode(word, erasures=lost).tobytes(), code.decode(word, errors=True)[1]
        (b'some data', -1)
        """
        if output not in ("codeword", "message"):
            raise ValueError('output is "message" or "codeword"')
        axis, checks = _axis(axis), self._n - self._k
        words = np.array(self._words(codeword, axis), order="C")
        numbers = self._calls.correct(words, checks, erasures, axis)
        result = words if output == "codeword" else words[_front(axis, words.shape[axis] - checks)].copy()
        if not errors:
            return result
        return result, numbers if numbers.ndim else int(numbers)

    def _words(self, codeword: Any, axis: int = -1) -> Words:
        """Words, which may be shortened."""
        words = symbols_of(codeword, self._calls.dtype, self._calls.bits)
        checks = self._n - self._k
        if not words.ndim or not checks < words.shape[axis] <= self._n:
            raise ValueError(f"expected {checks + 1} to {self._n} symbols of a word in axis {axis}")
        return words
