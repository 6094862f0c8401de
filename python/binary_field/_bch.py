"""Binary BCH codes, with the names of galois."""

from __future__ import annotations

import functools
import operator
from typing import Any, Union

import numpy as np

from ._chosen import GF
from ._code_calls import FieldCalls, flags_of, numbers_of, resized, symbols_of, told_by
from ._codes import CorrectingCode, modulus_of
from ._fields import Gf2
from ._library import Words, call
from ._poly import Poly

# The field whose codes have calls of their own, and the order of its generator.
_BYTES, _ORDER = 0x11D, 255
_BITS = np.dtype(np.uint8)
# The most bits of the extension field.
_MOST = 16


def _extension_of(n: int) -> int:
    """The degree of the least field in which an element has the order n."""
    for degree in range(2, _MOST + 1):
        if (1 << degree) % n == 1:
            return degree
    raise ValueError(f"no field of up to 2**{_MOST} elements has an element of the order {n}")


def _root_of(n: int, extension_field: Any, alpha: Any) -> tuple[Any, int]:
    """The extension field of a code, and its element of the order n whose powers are the roots."""
    field: Any = GF(2 ** _extension_of(n)) if extension_field is None else extension_field
    if not modulus_of(field) < 1 << _MOST + 1 or (field.order - 1) % n:
        raise ValueError(f"{field.__name__} has no element of the order {n}, or more than 2**{_MOST} elements")
    root = field.primitive_element ** ((field.order - 1) // n) if alpha is None else field(int(alpha))
    if not root or root.multiplicative_order() != n:
        raise ValueError(f"alpha has not the order {n}")
    return field, int(root)


def _leaders(n: int, t: int) -> list[int]:
    """The exponents from 1 to 2 t that are the least among those of their conjugates, which double them modulo n."""
    return [it for it in range(1, 2 * t, 2) if min(_conjugates(n, it)) == it]


def _conjugates(n: int, exponent: int) -> list[int]:
    """The exponents of the conjugates of a power of an element of order n."""
    found = [exponent % n]
    while found[-1] * 2 % n != found[0]:
        found.append(found[-1] * 2 % n)
    return found


@functools.lru_cache(maxsize=64)
def _checks(n: int, t: int) -> int:
    """How many bits of a word are no data: as many as the roots have conjugates."""
    return sum(len(_conjugates(n, it)) for it in _leaders(n, t))


class _BitCalls:
    """Codes whose length divides 255, by calls of their own."""

    def __init__(self, n: int, t: int) -> None:
        self.t, self.step = t, _ORDER // n
        data = np.zeros((), np.uint64)
        call("bch_data", _BYTES, n, t, self.step, data)
        self.k = int(data)

    def _call(self, name: str, words: Words, *arrays: Words) -> None:
        call(f"bch_{name}", _BYTES, words.shape[-1], self.t, self.step, words, *arrays)

    def encode(self, words: Words) -> None:
        """Writes the bits behind the data."""
        self._call("encode", words)

    def are_words(self, words: Words) -> Words:
        """Whether words are words of the code."""
        flags = np.empty(words.shape[:-1], np.uint8)
        self._call("are_words", words, flags)
        return told_by(flags)

    def correct(self, words: Words, erasures: Any) -> Words:
        """Corrects words, and tells how many bits of each changed."""
        counts = np.empty(words.shape[:-1], np.uint16)
        self._call("correct", words, flags_of(erasures, words.shape), counts)
        return numbers_of(counts)


class _WordCalls:
    """Codes of another length, as the words of bits of a Reed-Solomon code over the extension field: they are those at whose roots it is 0."""

    def __init__(self, n: int, t: int, field: Any, alpha: int) -> None:
        self.t, self.k = t, n - _checks(n, t)
        self._words = FieldCalls(int(field.irreducible_poly), 1, alpha)
        self._generator: Any = functools.reduce(operator.mul, ((field(alpha) ** it).minimal_poly() for it in _leaders(n, t)))

    @functools.cached_property
    def _parity(self) -> Any:
        """The matrix over GF(2) whose rows are the bits behind one bit of data that is 1, the first of them first."""
        generator, checks = int(self._generator), int(self._generator.degree)
        rows, rest = [], 1
        for _ in range(checks):
            rest <<= 1
            rest ^= generator * (rest >> checks)
        for _ in range(self.k):
            rows.append(rest)
            rest <<= 1
            rest ^= generator * (rest >> checks)
        texts = "".join(f"{it:0{checks}b}" for it in reversed(rows))
        return Gf2((np.frombuffer(texts.encode("ascii"), np.uint8) - ord("0")).reshape(self.k, checks))

    def encode(self, words: Words) -> None:
        """Writes the bits behind the data."""
        count = words.shape[-1] - int(self._generator.degree)
        data = words[..., :count].reshape(-1, count)
        made: Any = Gf2(data) @ self._parity[self.k - count :]
        words[..., count:] = made.to_words().reshape(*words.shape[:-1], -1)

    def are_words(self, words: Words) -> Words:
        """Whether words are words of the code."""
        return np.asarray(self._words.are_words(words, 2 * self.t, -1))

    def correct(self, words: Words, erasures: Any) -> Words:
        """Corrects words, and tells how many bits of each changed. What is near to a word of the other code alone stays."""
        found = words.astype(self._words.dtype)
        counts = self._words.correct(found, 2 * self.t, erasures, -1)
        far = (found > 1).any(axis=-1)
        counts = np.where(far, -1, counts)
        words[...] = np.where((counts < 0)[..., np.newaxis], words, found)
        return counts


class BCH:
    """A binary BCH code in the narrow sense: words of `n` bits, of which the first `k` are data, any of which are restored where at most `t`
    are wrong.

    The first bit is the coefficient of the highest power, and a word is one of the code where its polynomial is 0 at alpha, alpha**2, ..,
    alpha**(2 * t), where alpha is an element of the order n of an extension of GF(2): n is odd, and divides 2**m - 1 for an m up to 16. By
    default it is the least power of the primitive element of `extension_field`, and that the least field that has such an element, as `GF`
    makes it. Instead of `k` there may be `d`, at as many places two words differ at least; t and d are then the greatest with the same words.
    Calls take one word, or arrays of words in their last axis, of bits as integers, truth values or elements of `Gf2`, and return bytes that
    are 0 or 1. A word may be shortened: then it lacks bits of data at its front.

    >>> code = bf.BCH(15, 7)
    >>> code
    BCH(15, 7, d=5)
    >>> words = code.encode([[1, 0, 0, 1, 1, 0, 1], [0, 0, 0, 0, 0, 0, 1]])
    >>> words.tolist()[1]
    [0, 0, 0, 0, 0, 0, 1, 1, 1, 0, 1, 0, 0, 0, 1]
    >>> words[0, [2, 9]] ^= 1
    >>> code.decode(words, errors=True)[1].tolist()
    [2, 0]
    >>> bf.BCH(1023, d=21).k
    923
    """

    def __init__(self, n: int, k: int | None = None, d: int | None = None, *, extension_field: Any = None, alpha: Any = None) -> None:
        self._n = operator.index(n)
        if (k is None) == (d is None):
            raise ValueError("expected k or d, and not both")
        if self._n < 3 or self._n % 2 == 0:
            raise ValueError("a word of a whole code has an odd number of bits, 3 or more")
        self._kind, self._alpha = _root_of(self._n, extension_field, alpha)
        t = operator.index(d) // 2 if d is not None else self._errors_of(operator.index(k or 0))
        if not (0 < 2 * t < self._n and _checks(self._n, t) < self._n):
            raise ValueError(f"no code with words of {self._n} bits has d={d}")
        while 2 * t + 2 < self._n and _checks(self._n, t + 1) == _checks(self._n, t):
            t += 1
        self._t = t
        has_own = _ORDER % self._n == 0 and extension_field is None and alpha is None
        self._calls: Union[_BitCalls, _WordCalls] = _BitCalls(self._n, t) if has_own else _WordCalls(self._n, t, self._kind, self._alpha)

    def _errors_of(self, k: int) -> int:
        """The least number of errors for which there are k bits of data."""
        for t in range(1, (self._n + 1) // 2):
            left = self._n - _checks(self._n, t)
            if left <= k:
                break
        if left != k or k == 0:
            raise ValueError(f"no BCH code with words of {self._n} bits has k={k}")
        return t

    @property
    def n(self) -> int:
        """How many bits a word has."""
        return self._n

    @property
    def k(self) -> int:
        """How many bits of a word are data."""
        return self._calls.k

    @property
    def d(self) -> int:
        """At so many places two words of the code differ at least: 2 t + 1."""
        return 2 * self._t + 1

    @property
    def t(self) -> int:
        """How many errors, wherever they are, are corrected."""
        return self._t

    @property
    def c(self) -> int:
        """The exponent of the first root, which is 1."""
        return 1

    @property
    def is_systematic(self) -> bool:
        """Whether a word begins with its data, which is so."""
        return True

    @property
    def is_narrow_sense(self) -> bool:
        """Whether c is 1, which is so."""
        return True

    @property
    def is_primitive(self) -> bool:
        """Whether alpha is a primitive element of the extension field, so that n is one less than its order."""
        return self._n + 1 == int(self._kind.order)

    @property
    def alpha(self) -> int:
        """The element whose powers 1 to 2 t are roots, in the field of `extension_field`.

        >>> bf.BCH(31, 21).alpha
        2
        """
        return self._alpha

    @property
    def field(self) -> Any:
        """The field of the symbols, `Gf2`."""
        return Gf2

    @property
    def extension_field(self) -> Any:
        """The field that has the roots, as a class of arrays.

        >>> bf.BCH(15, 7).extension_field is bf.GF(2**4)
        True
        """
        return self._kind

    @property
    def _symbols(self) -> CorrectingCode:
        """The code over the extension field whose words of bits are those of this one."""
        return CorrectingCode(self._n, self._n - 2 * self._t, c=1, field=int(self._kind.irreducible_poly), alpha=self._alpha)

    @property
    def roots(self) -> Words:
        """The roots, in the field of `extension_field`: alpha, alpha**2, .., alpha**(2 * t).

        >>> bf.BCH(15, 7).roots.tolist()
        [2, 4, 8, 3]
        """
        return self._symbols.roots

    @property
    def H(self) -> Words:
        """The parity-check matrix over the field of `extension_field`: a row for each root has its powers, so that the matrix times a word is 0
        exactly where the word is one of the code.

        >>> bf.BCH(7, 4).H.tolist()
        [[5, 7, 6, 3, 4, 2, 1], [7, 3, 2, 5, 6, 4, 1]]
        """
        return self._symbols.H

    @property
    def parity_check_poly(self) -> Poly:
        """The quotient of x**n + 1 and the generator polynomial, so that its product with a word is 0 modulo x**n + 1.

        >>> bf.BCH(7, 4).parity_check_poly
        Poly(x^4 + x^2 + x + 1, Gf2)
        """
        return Poly.Int(1 << self._n | 1, Gf2) // self.generator_poly

    @property
    def generator_poly(self) -> Poly:
        """The polynomial over GF(2) that all words of the code are multiples of: the word with 1 as its only data.

        >>> bf.BCH(15, 7).generator_poly
        Poly(x^8 + x^7 + x^6 + x^4 + 1, Gf2)
        """
        return Poly(Gf2(self.encode([1])))

    @property
    def G(self) -> Words:
        """The generator matrix: its rows are the words with one bit of data that is 1, and data times it is their word.

        >>> bf.BCH(7, 4).G.tolist()
        [[1, 0, 0, 0, 1, 0, 1], [0, 1, 0, 0, 1, 1, 1], [0, 0, 1, 0, 1, 1, 0], [0, 0, 0, 1, 0, 1, 1]]
        """
        return self.encode(np.eye(self.k, dtype=_BITS))

    def __repr__(self) -> str:
        return f"BCH({self.n}, {self.k}, d={self.d})"

    def encode(self, message: Any, output: str = "codeword") -> Words:
        """The words with these data, k bits or fewer; with output="parity" only what stands behind the data.

        >>> bf.BCH(15, 11).encode([[1, 0, 0], [0, 0, 1]], output="parity").tolist()
        [[1, 1, 0, 0], [0, 0, 1, 1]]
        """
        if output not in ("codeword", "parity"):
            raise ValueError('output is "codeword" or "parity"')
        data = symbols_of(message, _BITS, 1)
        if not data.ndim or not 0 < data.shape[-1] <= self.k:
            raise ValueError(f"expected 1 to {self.k} bits of data in the last axis")
        count = data.shape[-1]
        words = np.zeros(resized(data.shape, -1, count + self._n - self.k), _BITS)
        words[..., :count] = data
        self._calls.encode(words)
        return words if output == "codeword" else words[..., count:].copy()

    def detect(self, codeword: Any) -> Any:
        """Whether words have errors that are seen: those that are no words of the code. Fewer than d errors are always seen.

        >>> bf.BCH(7, 4).detect([[1, 0, 0, 0, 1, 0, 1], [1, 0, 0, 0, 1, 0, 0]]).tolist()
        [False, True]
        """
        flags = self._calls.are_words(self._received(codeword))
        return ~flags if flags.ndim else not flags

    def decode(self, codeword: Any, output: str = "message", errors: bool = False, erasures: Any = None) -> Any:
        """The data of words, corrected where they are near enough to a word of the code: where they differ from one at e places beside c erased
        ones, and 2 e + c is at most 2 t. With output="codeword" it is that word. `erasures` has True for each bit that is erased, whatever is
        read there. A word that is near to none stays as it is. With errors=True also how many bits of each changed, and -1 where none is near.

        >>> code = bf.BCH(31, 21)
        >>> word = code.encode([1] * 21)
        >>> word[[3, 30]] ^= 1
        >>> data, changed = code.decode(word, errors=True)
        >>> data.all(), changed
        (True, 2)
        """
        if output not in ("codeword", "message"):
            raise ValueError('output is "message" or "codeword"')
        words = self._received(codeword).copy()
        numbers = self._calls.correct(words, erasures)
        result = words if output == "codeword" else words[..., : words.shape[-1] - (self._n - self.k)].copy()
        if not errors:
            return result
        return result, numbers if numbers.ndim else int(numbers)

    def _received(self, codeword: Any) -> Words:
        """Words of bits, which may be shortened."""
        words = symbols_of(codeword, _BITS, 1)
        checks = self._n - self.k
        if not words.ndim or not checks < words.shape[-1] <= self._n:
            raise ValueError(f"expected {checks + 1} to {self._n} bits of a word in the last axis")
        return words
