"""Elements that are drawn, and arrays in an order that is drawn, by numpy's generators, which are none for secrets."""

from __future__ import annotations

from typing import Any, Union

import numpy as np

from ._storage import S, Shape, Stored

# What a generator is made of: numpy's own, or an integer that it begins with, or nothing.
Seed = Union[int, np.random.Generator, None]


class Drawn(Stored):
    """What arrays of elements are by chance."""

    __slots__ = ()

    @classmethod
    def random(cls: type[S], shape: Shape = (), seed: Seed = None, *, low: int = 0, high: int | None = None) -> S:
        """Elements drawn by numpy's generator, whose representations are from `low` on and below `high`, by default all
        of the field.

        >>> bf.BinaryField8.random(3, seed=1)
        BinaryField8([0xff, 0xe4, 0x22])
        >>> bool((bf.Ghash128.random(100, seed=1, low=1, high=3) != 0).all())
        True
        """
        result = cls.zeros(shape)
        top = cls.order if high is None else high
        if not 0 <= low < top <= cls.order:
            raise ValueError(f"expected 0 <= low < high <= 2**{cls.degree}")
        draw = np.random.default_rng(seed)
        words = result._words["words"] if cls._dtype().names else result._words
        if (low, top) == (0, cls.order) or top <= 1 << 64 and not cls._dtype().names:
            last = min(top, 1 << 8 * words.dtype.itemsize) - 1
            words[...] = draw.integers(low, last, words.shape, words.dtype, endpoint=True)
            if cls._dtype().names:
                # What is left of the highest word are the bits of the field.
                words[..., -1] >>= np.uint64(8 * cls._dtype().itemsize - cls.degree)
            return result
        for at in range(result.size):
            # More bits by 64 than the range has: no number of it is likelier than another by more than 2**-64 of its
            # chance.
            number = int.from_bytes(draw.bytes(-(-(top - low).bit_length() // 8) + 8), "little")
            result._words.flat[at] = cls(low + number % (top - low))._words
        return result

    @classmethod
    def Random(cls: type[S], shape: Shape = (), low: int = 0, high: int | None = None, seed: Seed = None) -> S:
        """`random` with the parameters in the order of `galois`.

        >>> bf.BinaryField8.Random(3, seed=1)
        BinaryField8([0xff, 0xe4, 0x22])
        """
        result: S = cls.random(shape, seed, low=low, high=high)  # type: ignore[attr-defined]
        return result

    def shuffle(self, rng: Seed = None, axis: int = 0) -> None:
        """Puts what lies along an axis, by default the rows, into an order that is drawn, as a generator of numpy does
        with its arrays.

        >>> a = bf.BinaryField8([[1, 1], [2, 2], [3, 3]])
        >>> bf.BinaryField8.shuffle(a, np.random.default_rng(2))
        >>> a
        BinaryField8([[0x3, 0x3], [0x1, 0x1], [0x2, 0x2]])
        """
        order = np.random.default_rng(rng).permutation(self.shape[axis])
        self._words[...] = self._words.take(order, axis)

    def permuted(self: S, rng: Seed = None, axis: int | None = None) -> S:
        """A copy with all elements in an order that is drawn; along an axis each line of elements in an order of its
        own.

        >>> bf.BinaryField8([[1, 2, 3], [4, 5, 6]]).permuted(2, axis=1)
        BinaryField8([[0x3, 0x1, 0x2], [0x6, 0x5, 0x4]])
        """
        places: Any = np.arange(self.size).reshape(self.shape)
        return self._of(self._words.ravel()[np.random.default_rng(rng).permuted(places, axis=axis)])
