"""Elements in the memory of numpy: making them, changing their basis, indexes, shapes and texts."""

from __future__ import annotations

import contextlib
import functools
import operator
import re
from typing import Any, Callable, Final, Iterator, Sequence, TypeVar, Union

import numpy as np

from . import _tables
from ._library import WORDS, Words, call
from ._views import Views

S = TypeVar("S", bound="Stored")
Shape = Union[int, Sequence[int]]

# The format of each way to print elements.
_SPECS = {"hex": "#x", "int": "d", "poly": "p", "power": "g"}
# A format of integers: fill, alignment and sign, the mark of the base, width and grouping, and the type.
_FORMAT = re.compile(r"((?:.?[<>=^])?[-+ ]?)(#?)([^a-zA-Z%]*)([a-zA-Z%]?)", re.DOTALL)
# An array of more elements is printed by its first and last three.
_PRINTED = 1000
# The fields by their names in the library.
_FIELDS: dict[str, type[Stored]] = {}


class _Constants(type):
    """What every field has, as attributes of its class."""

    degree: int

    @property
    def order(cls) -> int:
        """The number of elements."""
        return 1 << cls.degree

    @property
    def characteristic(cls) -> int:
        """2: a sum of an element and itself is 0."""
        return 2

    @property
    def properties(cls) -> str:
        """The name, the numbers and the modulus of the field, a line each."""
        return _tables.properties(cls)

    @property
    def primitive_element(cls: type[S]) -> S:  # type: ignore[misc]
        """The generator of the multiplicative group that the library names."""
        result = cls.zeros(())
        call(f"{result._name}_generator", result._words)
        return result

    @property
    def elements(cls: type[S]) -> S:  # type: ignore[misc]
        """All elements by their representations, in fields of up to 16 bits."""
        if cls.degree > 16:
            raise ValueError(f"{cls.__name__} has too many elements for an array of them: 2**{cls.degree}")
        return cls(np.arange(cls.order))

    @property
    def units(cls: type[S]) -> S:  # type: ignore[misc]
        """All elements but 0, in fields of up to 16 bits."""
        return cls.elements[1:]

    @property
    def primitive_elements(cls: type[S]) -> S:  # type: ignore[misc]
        """The elements of which each but 0 is a power, in fields of up to 16 bits."""
        units: Any = cls.units
        found: S = units[units.multiplicative_order() == cls.order - 1]
        return found

    @property
    def irreducible_poly(cls) -> Any:
        """The modulus of a field of polynomials: over Gf2, and of Poly192 over Poly64. It has x**degree and what that is in the field."""
        from ._poly import Poly

        name = getattr(cls, "_name", "")
        if name not in ("r8", "p64", "g128", "p192"):
            raise AttributeError(f"elements of {cls.__name__} are no polynomials modulo one")
        below: Any = _FIELDS["p64" if name == "p192" else "gf2"]
        power = int(cls(1 << below.degree) ** (cls.degree // below.degree))
        return Poly.Int(cls.order | power, below)


def _of_words(name: str) -> Any:
    """A property of elements that is numpy's of the array of words in which they lie."""
    return property(operator.attrgetter(f"_words.{name}"))


class Stored(metaclass=_Constants):
    """What arrays of elements are but for arithmetic, which FieldArray adds."""

    __slots__ = ("__weakref__", "_views", "_words")

    degree: int
    _name: str
    _word: str
    # The isomorphic field: a level of the tower, or the polynomial basis of its degree.
    _partner: str | None = None
    # The format of elements where none is named.
    _spec = "#x"
    # Whether inverses one by one cost more than three products an element.
    _is_batched = False
    _words: Words
    # What it gave out as views, once it did.
    _views: Views

    def __init_subclass__(cls) -> None:
        if "_name" in vars(cls):
            _FIELDS[cls._name] = cls

    # ---- making

    def __init__(self, values: Any) -> None:
        """Makes an array, whose memory is its own, of the representations of elements, of which each is from 0 to 2**degree - 1: an
        integer, a text of hexadecimal digits or of a polynomial over GF(2) where elements are such, lists of them, or an array of numpy.
        Elements of a field that this one contains, or is isomorphic to, become their images.

        >>> bf.Ghash128([3, "ff", "x^2 + 1"])
        Ghash128([0x3, 0xff, 0x5])
        >>> bf.Ghash128(bf.BinaryField128([1, 2]))
        Ghash128([0x1, 0x295ac0b1f4731af9676aac9fa4b20b08])
        """
        dtype = self._dtype()
        if type(values) is int:
            self._words = np.frombuffer(bytearray(self._integer(values).to_bytes(dtype.itemsize, "little")), dtype).reshape(())
        elif isinstance(values, Stored):
            self._words = values.to(type(self))._words.copy()
        elif isinstance(values, np.ndarray) and values.dtype.kind in "bui":
            self._words = self._of_numbers(values)
        elif isinstance(values, (list, tuple)) and values and all(isinstance(it, Stored) for it in values):
            self._words = np.stack([self._operand(it)._words for it in values])
        else:
            items = np.array(values, dtype=object)
            data = b"".join(self._integer(it).to_bytes(dtype.itemsize, "little") for it in items.ravel())
            self._words = np.frombuffer(bytearray(data), dtype).reshape(items.shape)

    @classmethod
    def _of_numbers(cls, values: Words) -> Words:
        """The words of integers, of which each has to be an element."""
        if values.size and (int(values.min()) < 0 or int(values.max()) >= cls.order):
            raise ValueError(f"elements of {cls.__name__} must be integers from 0 to 2**{cls.degree} - 1")
        result = cls.zeros(values.shape)
        result._parts()[0][...] = values
        return result._words

    @classmethod
    def _integer(cls, value: Any) -> int:
        if isinstance(value, Stored):
            if value._name != cls._name:
                raise TypeError(f"cannot make an array of {cls.__name__} from a list of elements of {type(value).__name__}")
            return int(value)
        number = cls._read(value) if isinstance(value, str) else operator.index(value)
        if not 0 <= number < cls.order:
            raise ValueError(f"{number:#x} is not an element of {cls.__name__}: it must be from 0 to 2**{cls.degree} - 1")
        return number

    @classmethod
    def _has_polynomials(cls) -> bool:
        """Whether elements are polynomials over GF(2), of which bit i of a representation is the coefficient of x**i."""
        return not cls._is_in_tower() and cls.degree < 192

    @classmethod
    def _read(cls, text: str) -> int:
        """The representation of a text: hexadecimal digits or, in a field of polynomials over GF(2), one of these."""
        from ._poly import Poly

        try:
            return int(text, 16)
        except ValueError:
            if "x" not in text:
                raise ValueError(f"{text!r} is no text of hexadecimal digits") from None
        if not cls._has_polynomials():
            raise ValueError(f"{text!r}: elements of {cls.__name__} are no polynomials over GF(2), and a text is hexadecimal there")
        return int(Poly.Str(text))

    @classmethod
    def _dtype(cls) -> np.dtype[Any]:
        try:
            return WORDS[cls._word]
        except AttributeError:
            raise TypeError(f"{cls.__name__} is the class of all fields: take one, as BinaryField8") from None

    @classmethod
    def _of(cls: type[S], words: Any) -> S:
        """The array that holds these words, which have to be elements."""
        result = object.__new__(cls)
        result._words = words if isinstance(words, np.ndarray) else np.array(words, cls._dtype())
        return result

    @classmethod
    def zeros(cls: type[S], shape: Shape) -> S:
        """Zeros.

        >>> bf.Gf2.zeros((1, 2))
        Gf2([[0x0, 0x0]])
        """
        return cls._of(np.zeros(shape, cls._dtype()))

    @classmethod
    def Zeros(cls: type[S], shape: Shape) -> S:
        """`zeros`, as `galois` names it.

        >>> bf.Gf2.Zeros(2)
        Gf2([0x0, 0x0])
        """
        return cls.zeros(shape)

    @classmethod
    def ones(cls: type[S], shape: Shape) -> S:
        """Ones.

        >>> bf.Poly192.ones(2)
        Poly192([0x1, 0x1])
        """
        result = cls.zeros(shape)
        result._parts()[0][...] = 1
        return result

    @classmethod
    def Ones(cls: type[S], shape: Shape) -> S:
        """`ones`, as `galois` names it.

        >>> bf.Gf2.Ones(2)
        Gf2([0x1, 0x1])
        """
        return cls.ones(shape)

    @classmethod
    def Range(cls: type[S], start: int, stop: int | None = None, step: int = 1) -> S:
        """`range`, as `galois` names it.

        >>> bf.Ghash128.Range(2, 9, 3)
        Ghash128([0x2, 0x5, 0x8])
        """
        return cls(list(range(start) if stop is None else range(start, stop, step)))

    @classmethod
    def range(cls: type[S], start: int, stop: int | None = None, step: int = 1) -> S:
        """The elements with the representations of Python's `range`: from 0 or a start on, to one before the stop.

        >>> bf.Ghash128.range(3), bf.Ghash128.range(2, 9, 3)
        (Ghash128([0x0, 0x1, 0x2]), Ghash128([0x2, 0x5, 0x8]))
        """
        return cls.Range(start, stop, step)

    @classmethod
    def from_words(cls: type[S], words: Words, copy: bool = True) -> S:
        """The elements that these words hold, copied, or in the same memory: of 128 and 192 bits the last axis has 2 or 3 words of 64,
        the lowest first.

        >>> words = np.array([[1, 0], [0, 1]], np.uint64)
        >>> a = bf.Ghash128.from_words(words, copy=False)
        >>> words[0, 0] = 5
        >>> a
        Ghash128([0x5, 0x10000000000000000])
        """
        words, dtype = np.asarray(words), cls._dtype()
        inner = dtype["words"].shape if dtype.names else ()
        plain = np.dtype(np.uint64) if inner else dtype
        if words.dtype != plain or inner and words.shape[-1:] != inner:
            axis = f" with a last axis of {inner[0]}" if inner else ""
            raise TypeError(f"words of {cls.__name__} must be of type {plain}{axis}")
        if cls.degree < 8:
            cls._of_numbers(words)
        words = np.array(words, order="C") if copy else words
        return cls._of(words.view(dtype)[..., 0] if inner else words)

    # ---- what it holds

    def _parts(self) -> list[Words]:
        """The words of the elements, lowest first, each in an array of this shape."""
        if not self._words.dtype.names:
            return [self._words]
        return [self._words["words"][..., at] for at in range(self._words.dtype["words"].shape[0])]

    def _wordwise(self: S, function: Callable[[Words], Any]) -> S:
        """The array that has in each of its words what a function of numpy makes of that word."""
        made = [np.asarray(function(it)) for it in self._parts()]
        result = self.zeros(made[0].shape)
        for part, it in zip(result._parts(), made):
            part[...] = it
        return result

    def to_words(self, copy: bool = True) -> Words:
        """The words, as `from_words` takes them: copied, or in the same memory.

        >>> bf.Ghash128([1, 1 << 64]).to_words()
        array([[1, 0],
               [0, 1]], dtype=uint64)
        """
        words: Words = self._words["words"] if self._words.dtype.names else self._words
        return words.copy() if copy else words

    def view(self: S, kind: Any = None) -> Any:
        """The same memory as an array of a subclass of the field, or with `np.ndarray` as integers, the representations, in fields of up to
        64 bits. The words of larger ones are `to_words(copy=False)`.

        >>> a = bf.Rijndael8b([1, 2])
        >>> a.view(np.ndarray)[0] = 7
        >>> a
        Rijndael8b([0x7, 0x2])
        """
        if kind is None or kind is np.ndarray:
            if kind and self._dtype().names:
                raise TypeError(f"elements of {type(self).__name__} are no integers of numpy: to_words(copy=False) has their words")
            return self._words.view() if kind else self._of(self._words.view())
        if not (isinstance(kind, type) and issubclass(kind, Stored) and getattr(kind, "_name", None) == self._name):
            raise TypeError(f"the same memory holds elements of {type(self).__name__} alone, or integers: take to(field), or view(np.ndarray)")
        return kind._of(self._words.view())

    def to(self, field: type[S]) -> S:
        """The images in a field: this one, the isomorphic one in the other basis, or one that contains either.

        >>> bf.Rijndael8b([2]).to(bf.BinaryField16)
        BinaryField16([0x59])
        """
        if not (isinstance(field, _Constants) and hasattr(field, "_name")):
            raise TypeError("elements are converted to a field, a class as BinaryField8")
        if field._name == self._name:
            return self if type(self) is field else field._of(self._words)
        images: Callable[[Any], S] | None = getattr(field, "_images", None)
        if images is not None:
            return images(self)
        if self._partner == field._name:
            result = field.zeros(self.shape)
            call(f"{self._name}_to_{field._name}", self._words, result._words)
            return result
        if not self._is_in_tower() and self._partner is None and self.degree <= 128:
            raise TypeError(f"cannot convert {type(self).__name__} to {field.__name__}: take {field.__name__}.embedded")
        if field.degree <= self.degree or field.degree % self.degree:
            raise TypeError(f"cannot convert {type(self).__name__} to {field.__name__}, which does not contain it")
        # In the tower, and from p64 to p192, an element is its own image.
        if self._is_in_tower() and field._is_in_tower() or (self._name, field._name) == ("p64", "p192"):
            result = field.zeros(self.shape)
            for part, it in zip(result._parts(), self._parts()):
                part[...] = it
            return result
        between = _FIELDS[self._partner or ""] if not self._is_in_tower() else _FIELDS[field._partner or "p64"]
        return self.to(between).to(field)

    def astype(self: S, dtype: Any, copy: bool = True) -> S:
        """The same elements, by numpy's type of what holds them, `a.dtype`, which is the only one. Integers are `np.asarray(a, int)`.

        >>> bf.Gf2([1, 0]).astype(np.uint8)
        Gf2([0x1, 0x0])
        """
        if np.dtype(dtype) != self._dtype():
            raise TypeError(f"elements of {type(self).__name__} are held by {self._dtype()} alone: take to(field), or np.asarray(a, dtype) for numbers")
        return self.copy() if copy else self

    @classmethod
    def _is_in_tower(cls) -> bool:
        return cls._name == "gf2" or cls._name.startswith("t")

    @property
    def dtype(self) -> np.dtype[Any]:
        """numpy's type of what holds an element.

        >>> bf.BinaryField32(7).dtype
        dtype('uint32')
        """
        return np.dtype(self._words.dtype)

    shape: Final[tuple[int, ...]] = _of_words("shape")
    ndim: Final[int] = _of_words("ndim")
    size: Final[int] = _of_words("size")
    nbytes: Final[int] = _of_words("nbytes")
    itemsize: Final[int] = _of_words("itemsize")
    strides: Final[tuple[int, ...]] = _of_words("strides")
    flags: Final[Any] = _of_words("flags")

    @property
    def flat(self: S) -> Iterator[S]:
        """The elements one by one, in numpy's order."""
        return self.ravel().__iter__()

    def __len__(self) -> int:
        if not self.ndim:
            raise TypeError("an element has no length")
        return len(self._words)

    def __iter__(self: S) -> Iterator[S]:
        return (self[at] for at in range(len(self)))

    @staticmethod
    def _numbers_of(given: Any) -> Any:
        """Numbers and conditions, which elements are not."""
        if isinstance(given, Stored):
            raise TypeError(f"elements of {type(given).__name__} are no integers: take view(np.ndarray), or np.asarray(a, int)")
        return given

    @staticmethod
    def _place(key: Any) -> Any:
        """An index that is none of a structure's names."""
        if isinstance(key, str) or isinstance(key, list) and any(isinstance(it, str) for it in key):
            raise IndexError("an index must be an integer, a slice, an array of integers or booleans, `...` or None")
        return key

    def __getitem__(self: S, key: Any) -> S:
        """The elements at an index of numpy: a view where numpy's is one, and a copy of a single element.

        >>> a = bf.BinaryField8([1, 2, 3])
        >>> a[1:][0] = 9
        >>> a
        BinaryField8([0x1, 0x9, 0x3])
        """
        result = self._of(self._words[self._place(key)])
        if result._words.ndim and result._words.base is not None:
            try:
                views = self._views
            except AttributeError:
                views = self._views = Views()
            views.give(result)
        return result

    def __setitem__(self, key: Any, value: Any) -> None:
        place, elements = self._place(key), self._operand(value)
        if elements is value and hasattr(self, "_views"):
            self._views.assign(self._words, place, elements)
        self._words[place] = elements._words

    def __int__(self) -> int:
        if self.size != 1:
            raise TypeError("only a single element can be converted to an integer")
        return int.from_bytes(self._words.tobytes(), "little")

    def __bool__(self) -> bool:
        if self.size != 1:
            raise ValueError("the truth value of an array of several elements is ambiguous: take any() or all()")
        return int(self) != 0

    def _numbers(self) -> Words:
        """The representations, as an array of Python's integers."""
        numbers = (it.astype(object) << 64 * at for at, it in enumerate(self._parts()))
        return np.array(functools.reduce(operator.or_, numbers), dtype=object)

    def _exponents(self) -> Any:
        """The logarithms to the primitive element, and -1 of 0, as `tolist` has numbers."""
        elements: Any = self
        result = np.full(self.shape, -1, dtype=object)
        chosen = elements != 0
        result[chosen] = elements[chosen].log()
        return result.tolist()

    def item(self, *place: Any) -> int:
        """The representation of a single element, or of that at a place.

        >>> bf.Ghash128([[1, 2]]).item(0, 1)
        2
        """
        at = place[0] if len(place) == 1 and isinstance(place[0], tuple) else place
        if not at and self.size != 1 or len(at) not in (0, 1, self.ndim):
            raise ValueError("only a single element has an item without its place, which is one number or one for each axis")
        return int(self.ravel()[at] if len(at) == 1 else self[at])

    def tobytes(self) -> bytes:
        """The bytes of the words, the lowest of each first.

        >>> bf.BinaryField16([1, 0x203]).tobytes().hex()
        '01000302'
        """
        return self._words.tobytes()

    def tolist(self) -> Any:
        """The representations, as nested lists of integers.

        >>> bf.Ghash128([[1, 1 << 127]]).tolist()
        [[1, 170141183460469231731687303715884105728]]
        """
        return self._numbers().tolist()

    def __array__(self, dtype: Any = None, copy: bool | None = None) -> Words:
        """Elements as objects, so that what numpy and other libraries compute of them is computed in the field. Where a type of integers is
        named, the representations. A copy in both cases; `to_words` and `view` make none."""
        if copy is False:
            raise ValueError("cannot make an array of numpy without a copy; to_words(copy=False) makes none")
        if dtype is not None and np.dtype(dtype) != object:
            if np.dtype(dtype).kind not in "biu":
                raise TypeError(f"representations of elements of {type(self).__name__} are integers, and no {np.dtype(dtype)}")
            return np.array(self._numbers() if self._dtype().names else self._words, dtype=dtype)
        flat = np.empty(self.size, dtype=object)
        for at, it in enumerate(self.ravel()):
            flat[at] = it
        return flat.reshape(self.shape)

    def __reduce__(self) -> Any:
        return self._of, (self._words,)

    def __repr__(self) -> str:
        if not self.size and self.ndim > 1:
            return f"{type(self).__name__}.zeros({self.shape})"
        return f"{type(self).__name__}({self})"

    def __str__(self) -> str:
        return format(self)

    def __format__(self, spec: str) -> str:
        """The representations, each by a format of integers, as `#x`; or `p`, polynomials, of a field that is of polynomials over GF(2); or
        `g`, powers of the primitive element, of a field of up to 64 bits. Where no type is named, it is what `repr` said last.

        >>> f"{bf.BinaryField8([1, 255]):08b}"
        '[00000001, 11111111]'
        >>> f"{bf.BinaryField8([1, 255]):>6}"
        '[   0x1,   0xff]'
        >>> f"{bf.Rijndael8b(0x53):p}"
        'x^6 + x^4 + x + 1'
        """
        spec = _completed(spec, self._spec)
        if spec[-1] == "p" and not self._has_polynomials():
            raise ValueError(f"elements of {type(self).__name__} are no polynomials over GF(2)")
        if self.size <= _PRINTED:
            return _shown(self._exponents() if spec[-1] == "g" else self.tolist(), spec)
        first, last = (format(self._of(self._words.flat[at]), spec)[1:-1] for at in (slice(3), slice(-3, None)))
        return f"[{first}, .., {last}], {self.size} elements of shape {self.shape}"

    @classmethod
    def repr(cls, representation: str = "hex") -> contextlib.AbstractContextManager[Any]:
        """From here on the elements of this field are printed as hexadecimal numbers ("hex"), decimal ones ("int"), polynomials over GF(2)
        ("poly") or powers of the primitive element g ("power"), by formats of `format`; in a `with` statement until its end.

        >>> with bf.Rijndael8b.repr("poly"):
        ...     bf.Rijndael8b([2, 0x53])
        Rijndael8b([x, x^6 + x^4 + x + 1])
        >>> with bf.Rijndael8b.repr("power"):
        ...     bf.Rijndael8b([0, 1, 3, 5])
        Rijndael8b([0, 1, g^184, g^113])
        """
        if representation not in _SPECS:
            raise ValueError(f"elements are printed by one of {', '.join(_SPECS)}")
        before, spec = cls._spec, _SPECS[representation]
        format(cls.zeros(()), spec)
        cls._spec = spec
        kept = contextlib.ExitStack()
        kept.callback(setattr, cls, "_spec", before)
        return kept

    # ---- shapes: views where numpy's are

    def copy(self: S) -> S:
        """A copy, whose memory is its own.

        >>> a = bf.Gf2([1, 1])
        >>> b = a.copy()
        >>> b[0] = 0
        >>> a
        Gf2([0x1, 0x1])
        """
        return self._of(self._words.copy())

    __copy__ = copy

    def reshape(self: S, *shape: Any) -> S:
        """The same elements in another shape.

        >>> bf.Gf2([1, 0, 1, 1]).reshape(2, -1)
        Gf2([[0x1, 0x0], [0x1, 0x1]])
        """
        return self._of(self._words.reshape(*shape))

    def ravel(self: S) -> S:
        """The elements in one dimension.

        >>> bf.Gf2([[1, 0], [1, 1]]).ravel()
        Gf2([0x1, 0x0, 0x1, 0x1])
        """
        return self._of(self._words.ravel())

    def flatten(self: S) -> S:
        """A copy of the elements in one dimension.

        >>> bf.Gf2([[1, 0], [1, 1]]).flatten()
        Gf2([0x1, 0x0, 0x1, 0x1])
        """
        return self._of(self._words.flatten())

    def transpose(self: S, *axes: Any) -> S:
        """The same elements with the axes in another order, by default the opposite one.

        >>> bf.BinaryField8([[1, 2], [3, 4]]).transpose()
        BinaryField8([[0x1, 0x3], [0x2, 0x4]])
        """
        return self._of(self._words.transpose(*axes))

    @property
    def T(self: S) -> S:
        """The transpose.

        >>> bf.BinaryField8([[1, 2]]).T
        BinaryField8([[0x1], [0x2]])
        """
        return self.transpose()

    def swapaxes(self: S, first: int, second: int) -> S:
        """The same elements with two axes in each other's place.

        >>> bf.BinaryField8([[1, 2]]).swapaxes(0, 1).shape
        (2, 1)
        """
        return self._of(self._words.swapaxes(first, second))

    def squeeze(self: S, axis: Any = None) -> S:
        """The same elements without the axes of length 1, or without those that are named.

        >>> bf.Gf2([[1, 0]]).squeeze().shape
        (2,)
        """
        return self._of(self._words.squeeze(axis))

    def diagonal(self: S, offset: int = 0, axis1: int = 0, axis2: int = 1) -> S:
        """The elements at equal places of two axes.

        >>> bf.BinaryField8([[1, 2], [3, 4]]).diagonal()
        BinaryField8([0x1, 0x4])
        """
        return self._of(self._words.diagonal(offset, axis1, axis2))

    def take(self: S, indices: Any, axis: int | None = None) -> S:
        """The elements at places, of all or along an axis.

        >>> bf.BinaryField8([5, 6, 7]).take([2, 0])
        BinaryField8([0x7, 0x5])
        """
        return self._of(self._words.take(self._numbers_of(indices), axis))

    def repeat(self: S, repeats: Any, axis: int | None = None) -> S:
        """Each element as often as it is said.

        >>> bf.BinaryField8([5, 6]).repeat([1, 2])
        BinaryField8([0x5, 0x6, 0x6])
        """
        return self._of(self._words.repeat(self._numbers_of(repeats), axis))

    def compress(self: S, condition: Any, axis: int | None = None) -> S:
        """The elements at which a condition holds, of all or along an axis.

        >>> bf.BinaryField8([5, 6]).compress([False, True])
        BinaryField8([0x6])
        """
        return self._of(self._words.compress(self._numbers_of(condition), axis))

    def fill(self, value: Any) -> None:
        """Makes each element the one that is given.

        >>> a = bf.BinaryField8([5, 6])
        >>> a.fill(7)
        >>> a
        BinaryField8([0x7, 0x7])
        """
        self[...] = value

    @classmethod
    def _operand(cls: type[S], value: Any) -> S:
        """An array of this field, of representations where it is not one already."""
        if isinstance(value, Stored):
            if value._name != cls._name:
                raise TypeError(f"{cls.__name__} and {type(value).__name__} cannot be mixed; convert with .to()")
            return value if isinstance(value, cls) else cls._of(value._words)
        return cls(value)


def _completed(spec: str, default: str) -> str:
    """A format with the type of the default one, where it names none."""
    found = _FORMAT.fullmatch(spec)
    if found is None or found[4]:
        return spec
    mark = "#" if "#" in found[2] + default else ""
    return f"{found[1]}{mark}{found[3]}{default[-1]}"


def _shown(values: Any, spec: str) -> str:
    if isinstance(values, list):
        return f"[{', '.join(_shown(it, spec) for it in values)}]"
    if spec[-1] == "g":
        return format("0" if values < 0 else "1" if values == 0 else "g" if values == 1 else f"g^{values}", spec[:-1])
    if spec[-1] != "p":
        return format(values, spec)
    powers = [f"x^{i}" if i > 1 else "x" if i else "1" for i in reversed(range(values.bit_length())) if values >> i & 1]
    return format(" + ".join(powers) or "0", spec[:-1])
