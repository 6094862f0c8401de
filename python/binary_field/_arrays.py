"""Arrays of field elements, which behave as those of numpy."""

from __future__ import annotations

import functools
import math
import operator
from typing import Any, Callable, TypeVar, Union

import numpy as np

from ._library import FEW, Words, call, call_of_few, call_of_one, is_packed, packed
from ._matrices import Matrices, product
from ._workers import set_workers

A = TypeVar("A", bound="FieldArray")
# What an operator takes beside arrays of its field.
_Integers = Union[int, "np.integer[Any]", "list[Any]", "tuple[Any, ...]", Words]

_MASK_64 = (1 << 64) - 1
# The functions whose form in place takes no longer than the other one.
_IN_PLACE = ("add", "inverse", "multiply", "multiply_by", "power", "square", "square_root")
# What numpy's ufuncs and functions are over elements, which _numpy.py fills.
UFUNCS: dict[np.ufunc, Callable[..., Any]] = {}
FUNCTIONS: dict[Callable[..., Any], Callable[..., Any]] = {}


def implement(functions: dict[Any, Callable[..., Any]]) -> None:
    """Adds functions of numpy, each with what it is over elements. What a wrong argument is told of has the name that the caller knows."""
    for known, own in functions.items():
        own.__name__ = own.__qualname__ = known.__name__
        FUNCTIONS[known] = own


def _is_left_to(other: Any) -> bool:
    """Whether an operator is left to the other operand, as numpy's arrays leave it: a polynomial says so, and arrays of other libraries,
    as those of dask, have their own rules."""
    return hasattr(other, "__array_ufunc__") and not isinstance(other, (FieldArray, np.ndarray, np.generic))


@functools.cache
def _constant(dtype: np.dtype[Any], value: int) -> Words:
    """The words of 0 or 1, which nobody can write."""
    words = np.array(value, dtype) if dtype.names is None else np.zeros((), dtype)
    if dtype.names:
        words["words"][0] = value
    words.flags.writeable = False
    return words


class FieldArray(Matrices):
    """An array of elements of one field; each field is a subclass. An element is an array of no dimensions.

    `F(x)` makes one of integers, which are the representations of elements, of nested lists of them, of texts of hexadecimal
    digits, of numpy's integers, and of elements of a field that this one contains or is isomorphic to.

    `+`, `-`, `*`, `/`, `**` and `@` are those of the field, with numpy's shapes, broadcasting and views. The other operand holds
    elements of the same field, or the integers 0 and 1, alone, in lists or in arrays of numpy. Any other integer is refused, since it
    could be meant as a representation or as a number of the field's ones: `F(2)` is the one, and 0 the other. Where nothing but a
    representation can be meant, integers are that: in `F(..)`, in what is assigned, in `==`, and in `F.evaluate`.

    Of a list of arrays, numpy makes an array of objects, each an element, and computes in the field.

    >>> import numpy as np, binary_field as bf
    >>> F = bf.Rijndael8b
    >>> a = F([[1, 2], [3, 0x53]])
    >>> a * F(0xCA) + 1
    Rijndael8b([[0xcb, 0x8e], [0x44, 0x0]])
    >>> row = a[1]
    >>> row[0] = 9
    >>> a.T
    Rijndael8b([[0x1, 0x9], [0x2, 0x53]])
    >>> np.sum([F(3), F(1)])
    Rijndael8b(0x2)
    """

    __slots__ = ()
    __hash__ = None  # type: ignore[assignment]
    # That of numpy's arrays: dask compares the priorities of chunks.
    __array_priority__ = 0.0

    # ---- operands

    @classmethod
    def _other(cls: type[A], value: Any) -> A:
        """The other operand of an operator: of this field, or of integers 0 and 1."""
        if isinstance(value, FieldArray):
            return cls._operand(value)
        if type(value) is int and value in (0, 1):
            return cls._of(_constant(cls._dtype(), value))
        array = value if isinstance(value, np.ndarray) else np.array(value, dtype=object)
        if array.dtype.kind in "bui":
            is_meant = bool(((array == 0) | (array == 1)).all())
        else:
            is_meant = array.dtype == object and all(map(cls._is_meant, array.ravel()))
        if not is_meant:
            raise TypeError(cls._why_not(value, array))
        return cls(array)

    @classmethod
    def _why_not(cls, value: Any, array: Words) -> str:
        """What is said of an operand that holds neither elements nor zeros and ones."""
        name = cls.__name__
        wrong = next(it for it in array.ravel().tolist() if not cls._is_meant(it))
        if isinstance(wrong, FieldArray):
            return f"{name} and {type(wrong).__name__} cannot be mixed; convert with .to()"
        if not isinstance(wrong, int):
            return f"beside elements of {name} an operand holds such elements, or the integers 0 and 1, and not {type(wrong).__name__}"
        element = f"{name}({wrong})" if 0 <= wrong < cls.order else "a representation, of which there is none"
        return f"beside elements of {name} an integer is 0 or 1: {wrong} could be {element}, or {wrong} times 1, which is {wrong % 2}"

    @classmethod
    def _is_meant(cls, item: Any) -> bool:
        return isinstance(item, FieldArray) and item._name == cls._name or isinstance(item, (int, np.integer, np.bool_)) and item in (0, 1)

    @staticmethod
    def _shape_of(*arrays: FieldArray, out: FieldArray | None = None) -> tuple[int, ...]:
        """The shape of what is computed place by place."""
        shapes = [it.shape for it in arrays]
        try:
            shape = np.broadcast_shapes(*shapes)
        except ValueError as error:
            raise ValueError(f"arrays of shapes {' and '.join(map(str, shapes))} cannot be broadcast together") from error
        if out is None:
            return shape
        if shape != out.shape and np.broadcast_shapes(shape, out.shape) != out.shape:
            raise ValueError(f"an array of shape {out.shape} cannot take a result of shape {shape}")
        return out.shape

    def _broadcast(self: A, shape: tuple[int, ...]) -> A:
        return self if self.shape == shape else self._of(np.broadcast_to(self._words, shape))

    def _called(self: A, function: str, *operands: Any, out: A | None = None) -> A:
        """Calls a function of the library that writes an array of the first operand's shape, into `out` where one is given. Where that is the
        first operand, the function's form in place is called."""
        if out is None and all(getattr(it, "size", 1) <= FEW for it in operands):
            return self._of(call_of_few(f"{self._name}_{function}", *operands))
        result = None if out is None or not is_packed(out._words) else out._words
        in_place = operands[0] is result and function in _IN_PLACE
        if result is None or any(isinstance(it, np.ndarray) and np.may_share_memory(it, result) for it in operands[in_place:]):
            result, in_place = np.empty(operands[0].shape, self._dtype()), False
        call(f"{self._name}_{function}{'_in_place' if in_place else ''}", *operands, *([] if in_place else [result]))
        if out is None:
            return self._of(result)
        if result is not out._words:
            out._words[...] = result
        return out

    def _elementwise(self: A, function: str, other: A, out: A | None = None) -> A:
        """A function of two arrays, after broadcasting."""
        words, others = self._words, other._words
        if out is None and words.shape == others.shape:
            return self._called(function, words, others) if words.ndim else self._of(call_of_one(f"{self._name}_{function}", words, others))
        shape = self._shape_of(self, other, out=out)
        if function == "multiply" and self.shape != other.shape and 0 in (self.ndim, other.ndim):
            scalar, values = (self, other) if self.ndim == 0 else (other, self)
            return self._called("multiply_by", values._broadcast(shape)._words, scalar._scalar(), out=out)
        return self._called(function, self._broadcast(shape)._words, other._broadcast(shape)._words, out=out)

    def _each(self: A, function: str, *more: Any, out: A | None = None, workers: int | None = None) -> A:
        """A function of each element."""
        if out is None and not more and not self._words.ndim:
            return self._of(call_of_one(f"{self._name}_{function}", self._words))
        values = self if out is None else self._broadcast(self._shape_of(self, out=out))
        with set_workers(workers):
            return self._called(function, values._words, *more, out=out)

    def _scalar(self) -> Any:
        """This element as the library takes a scalar."""
        return self._words if self._dtype().names else int(self)

    # ---- arithmetic

    def scaled(self: A, scalar: Any, workers: int | None = None) -> A:
        """The product of each element and one.

        >>> bf.Rijndael8b([1, 0x80]).scaled(2)
        Rijndael8b([0x2, 0x1b])
        """
        return self._each("multiply_by", self._operand(scalar)._scalar(), workers=workers)

    def add_scaled(self: A, scalar: Any, values: A, workers: int | None = None) -> None:
        """Adds to each element the scalar times the value at its place, in this array.

        >>> a = bf.Rijndael8b([1, 1])
        >>> a.add_scaled(2, bf.Rijndael8b([1, 0x80]))
        >>> a
        Rijndael8b([0x3, 0x1a])
        """
        values = self._operand(values)
        if values.shape != self.shape:
            raise ValueError(f"the shapes {self.shape} and {values.shape} differ")
        sums = packed(self._words)
        added = values._words.copy() if np.may_share_memory(sums, values._words) else values._words
        with set_workers(workers):
            call(f"{self._name}_add_scaled", sums, self._operand(scalar)._scalar(), added)
        if sums is not self._words:
            self._words[...] = sums

    def _operated(self: A, operation: str, other: A | _Integers) -> A:
        """The operation as an operator has it, which is left to some operands."""
        if type(other) is type(self):
            return self._elementwise(operation, other)  # type: ignore[arg-type]
        if _is_left_to(other):
            return NotImplemented
        return self._elementwise(operation, self._other(other))

    def __add__(self: A, other: A | _Integers) -> A:
        return self._operated("add", other)

    __radd__ = __sub__ = __rsub__ = __add__

    def __iadd__(self: A, other: A | _Integers) -> A:
        return self._elementwise("add", self._other(other), self)

    __isub__ = __iadd__

    def __mul__(self: A, other: A | _Integers) -> A:
        return self._operated("multiply", other)

    __rmul__ = __mul__

    def __imul__(self: A, other: A | _Integers) -> A:
        return self._elementwise("multiply", self._other(other), self)

    def __neg__(self: A) -> A:
        return self.copy()

    __pos__ = __neg__

    def __truediv__(self: A, other: A | _Integers) -> A:
        if _is_left_to(other):
            return NotImplemented
        return self._quotient(self._other(other))

    def __rtruediv__(self: A, other: A | _Integers) -> A:
        return self.reciprocal() if isinstance(other, int) and other == 1 else self._other(other)._quotient(self)

    def __itruediv__(self: A, other: A | _Integers) -> A:
        return self._quotient(self._other(other), self)

    def _quotient(self: A, divisor: A, out: A | None = None) -> A:
        """The quotients, after broadcasting; ZeroDivisionError where a divisor is 0."""
        return self._elementwise("multiply", divisor.reciprocal(), out)

    def __pow__(self: A, exponent: Any) -> A:
        """Each element to the power of an integer, of any size, or of the one at its place in an array of integers; a negative one is a
        power of the inverse.

        >>> bf.Rijndael8b([2, 3]) ** -1
        Rijndael8b([0x8d, 0xf6])
        >>> bf.Rijndael8b([2, 3]) ** [3, 0]
        Rijndael8b([0x8, 0x1])
        """
        if not isinstance(exponent, (int, np.integer)):
            return self._powers(np.array(None if isinstance(exponent, FieldArray) else exponent))
        base, rest = (self, int(exponent)) if exponent >= 0 else (self.reciprocal(), -int(exponent))
        result = base._each("power", rest & _MASK_64)
        while rest := rest >> 64:
            for _ in range(64):
                base = base.square()
            result = result * base._each("power", rest & _MASK_64)
        return result

    def _powers(self: A, exponents: Words) -> A:
        """By the bits of all exponents, the lowest first."""
        is_whole = exponents.dtype.kind in "iu" or exponents.dtype == object and all(isinstance(it, (int, np.integer)) for it in exponents.flat)
        if not is_whole:
            raise TypeError("the exponents must be integers")
        numbers = exponents.astype(object)
        shape = np.broadcast_shapes(self.shape, numbers.shape)
        base, rest = self._broadcast(shape).copy(), np.array(np.broadcast_to(numbers, shape))
        is_negative = np.asarray(rest < 0, bool)
        base[is_negative] = base[is_negative].reciprocal()
        rest, result = np.asarray(abs(rest), object), self.ones(shape)
        while (is_left := np.asarray(rest != 0, bool)).any():
            is_odd = is_left & np.asarray(rest % 2 == 1, bool)
            result[is_odd] *= base[is_odd]
            base, rest = base.square(), np.asarray(rest // 2, object)
        return result

    def __ipow__(self: A, exponent: Any) -> A:
        self[...] = self**exponent
        return self

    def __matmul__(self: A, other: A | _Integers) -> A:
        if _is_left_to(other):
            return NotImplemented
        return product(self, self._other(other))

    def __rmatmul__(self: A, other: A | _Integers) -> A:
        return product(self._other(other), self)

    def __imatmul__(self: A, other: A | _Integers) -> A:
        return self._left_in(self, product(self, self._other(other)))

    def dot(self: A, other: Any, out: A | None = None) -> A:
        """The sums of products over the last axis of this array and the last but one of the other, which of vectors is its only one; the
        product place by place where either is one element.

        >>> bf.Rijndael8b([1, 2]).dot(bf.Rijndael8b([3, 0x80]))
        Rijndael8b(0x18)
        """
        factor: A = self._other(other)
        if not self.ndim or not factor.ndim:
            return self._left_in(out, self.__mul__(factor))
        if factor.ndim == 1:
            return self._left_in(out, product(self, factor))
        columns = np.moveaxis(factor._words, -2, 0)
        if columns.shape[0] != self.shape[-1]:
            raise ValueError(f"cannot multiply arrays of shapes {self.shape} and {factor.shape}")
        products = product(self, factor._of(columns.reshape(len(columns), math.prod(columns.shape[1:]))))
        return self._left_in(out, products.reshape(self.shape[:-1] + columns.shape[1:]))

    def square(self: A, out: A | None = None, workers: int | None = None) -> A:
        """The square of each element.

        >>> bf.BinaryField8([2, 3]).square()
        BinaryField8([0x3, 0x2])
        """
        return self._each("square", out=out, workers=workers)

    def sqrt(self: A, out: A | None = None, workers: int | None = None) -> A:
        """The one square root of each element.

        >>> bf.BinaryField8([2, 3]).sqrt()
        BinaryField8([0x3, 0x2])
        """
        return self._each("square_root", out=out, workers=workers)

    def inverse_or_zero(self: A, out: A | None = None, workers: int | None = None) -> A:
        """The inverse of each element, and 0 for 0.

        >>> bf.Rijndael8b([0, 2]).inverse_or_zero()
        Rijndael8b([0x0, 0x8d])
        """
        return self._each("batch_inverse" if self._is_batched else "inverse", out=out, workers=workers)

    def reciprocal(self: A, out: A | None = None, workers: int | None = None) -> A:
        """The inverse of each element; ZeroDivisionError where one is 0.

        >>> bf.Rijndael8b([2]).reciprocal()
        Rijndael8b([0x8d])
        """
        self._refuse_zero()
        return self.inverse_or_zero(out, workers)

    def _refuse_zero(self) -> None:
        """ZeroDivisionError where an element is 0."""
        if not (self._truths().all() if self._words.ndim else int(self)):
            raise ZeroDivisionError(f"0 of {type(self).__name__} has no inverse")

    # ---- polynomials

    @classmethod
    def evaluate(cls: type[A], coefficients: Any, points: Any, workers: int | None = None) -> A:
        """The value at each point of the polynomial whose coefficients of 1, x, x**2 and so on are those of an array of one dimension.
        The transform's coefficients are others: `from_powers` makes them.

        >>> bf.BinaryField8.evaluate([5, 1], [0, 2])
        BinaryField8([0x5, 0x7])
        """
        coefficients, points = cls._operand(coefficients), cls._operand(points)
        if coefficients.ndim != 1:
            raise ValueError("coefficients must have one dimension")
        result = cls.zeros(points.shape)
        with set_workers(workers):
            call(f"{cls._name}_evaluate", coefficients._words, points._words, result._words)
        return result

    # ---- over axes

    @staticmethod
    def _left_in(out: A | None, result: A) -> A:
        """The result, or the array of its shape that it is left in."""
        if out is None:
            return result
        if getattr(out, "_name", None) != result._name:
            raise TypeError(f"a result of {type(result).__name__} has no place in {type(out).__name__}")
        if out.shape != result.shape:
            raise ValueError(f"an array of shape {out.shape} cannot take a result of shape {result.shape}")
        out[...] = result
        return out

    @staticmethod
    def _no_type(dtype: Any) -> None:
        if dtype is not None:
            raise TypeError("elements are computed in their field alone, so that no dtype can be chosen")

    def sum(self: A, axis: Any = None, dtype: Any = None, out: A | None = None, keepdims: bool = False, initial: Any = None, where: Any = True) -> A:
        """The sum of all elements or over axes, 0 of none.

        >>> bf.BinaryField8([[1, 2], [3, 4]]).sum(axis=0)
        BinaryField8([0x2, 0x6])
        """
        self._no_type(dtype)
        result = self._wordwise(lambda it: np.bitwise_xor.reduce(it, axis=axis, keepdims=keepdims, where=where))
        return self._left_in(out, result if initial is None else result._elementwise("add", self._other(initial)))

    def prod(self: A, axis: Any = None, dtype: Any = None, out: A | None = None, keepdims: bool = False, initial: Any = None, where: Any = True) -> A:
        """The product of all elements or over axes, 1 of none.

        >>> bf.Rijndael8b([[1, 2], [3, 0x80]]).prod(axis=0)
        Rijndael8b([0x3, 0x1b])
        """
        self._no_type(dtype)
        factors = self
        if where is not True:
            chosen, factors = np.broadcast_to(where, self.shape), self.ones(self.shape)
            factors[chosen] = self[chosen]
        axes = tuple(range(self.ndim)) if axis is None else axis if isinstance(axis, tuple) else (axis,)
        words = np.moveaxis(factors._words, axes, range(len(axes)))
        count, rest = math.prod(words.shape[: len(axes)]), words.shape[len(axes) :]
        result = self._folded(self._of(words.reshape((count, *rest))))
        if keepdims:
            result = self._of(np.expand_dims(result._words, axes))
        return self._left_in(out, result if initial is None else result._elementwise("multiply", self._other(initial)))

    @classmethod
    def _folded(cls: type[A], factors: A) -> A:
        """The product over the first axis: of one axis by the library, else by products of halves."""
        if factors.ndim == 1:
            result = cls.zeros(())
            call(f"{cls._name}_product", factors._words, result._words)
            return result
        while len(factors) > 1:
            half = len(factors) // 2
            products = factors[:half] * factors[half : 2 * half]
            if len(factors) % 2:
                products[:1] *= factors[-1:]
            factors = products
        return factors[0].copy() if len(factors) else cls.ones(factors.shape[1:])

    def cumsum(self: A, axis: int | None = None, dtype: Any = None, out: A | None = None) -> A:
        """The sums of the first elements, of all or along an axis.

        >>> bf.BinaryField8([1, 2, 4]).cumsum()
        BinaryField8([0x1, 0x3, 0x7])
        """
        self._no_type(dtype)
        values = self.ravel() if axis is None else self
        return self._left_in(out, values._wordwise(lambda it: np.bitwise_xor.accumulate(it, axis=axis or 0)))

    def cumprod(self: A, axis: int | None = None, dtype: Any = None, out: A | None = None) -> A:
        """The products of the first elements, of all or along an axis.

        >>> bf.Rijndael8b([2, 2, 2]).cumprod()
        Rijndael8b([0x2, 0x4, 0x8])
        """
        self._no_type(dtype)
        result = self.flatten() if axis is None else self.copy()
        along, reach = self._of(np.moveaxis(result._words, axis or 0, 0)), 1
        # Each place has the product of the `reach` elements up to it.
        while reach < len(along):
            along[reach:] = along[reach:] * along[:-reach]
            reach *= 2
        return self._left_in(out, result)

    def _truths(self) -> Any:
        """What is true to numpy where an element is not 0."""
        return self._words["words"].any(-1) if self._dtype().names else self._words

    def nonzero(self) -> Any:
        """The places of the elements that are not 0, along each axis.

        >>> bf.Gf2([0, 1, 1]).nonzero()
        (array([1, 2]),)
        """
        return np.nonzero(self._truths())

    def any(self, axis: Any = None) -> Any:
        """Whether an element is not 0.

        >>> bool(bf.Gf2([0, 1]).any())
        True
        """
        return np.any(self._truths(), axis)

    def all(self, axis: Any = None) -> Any:
        """Whether no element is 0.

        >>> bool(bf.Gf2([0, 1]).all())
        False
        """
        return np.all(self._truths(), axis)

    def trace(self: A, offset: int = 0, axis1: int = 0, axis2: int = 1) -> A:
        """The sum of a diagonal.

        >>> bf.BinaryField8([[1, 2], [3, 4]]).trace()
        BinaryField8(0x5)
        """
        return self.diagonal(offset, axis1, axis2).sum(-1)

    # ---- comparisons

    def __eq__(self, other: Any) -> Any:
        """Place by place, as numpy compares: with elements of the field, with integers by their representation; nothing else is equal."""
        if isinstance(other, FieldArray):
            if other._name != self._name:
                return NotImplemented
            return functools.reduce(operator.and_, (x == y for x, y in zip(self._parts(), other._parts())))
        if _is_left_to(other):
            return NotImplemented
        if isinstance(other, (int, np.integer)):
            is_element = 0 <= other < type(self).order
            return self == type(self)(int(other)) if is_element else np.zeros(self.shape, bool)[()]
        return self._numbers() == np.array(other, dtype=object)

    def __ne__(self, other: Any) -> Any:
        same = self.__eq__(other)
        return same if same is NotImplemented else np.logical_not(same)

    def __contains__(self, item: Any) -> bool:
        return bool(np.any(self == item))

    # ---- numpy

    def __array_ufunc__(self, ufunc: np.ufunc, method: str, *inputs: Any, **options: Any) -> Any:
        function = UFUNCS.get(ufunc)
        return NotImplemented if function is None else function(method, inputs, options)

    def __array_function__(self, function: Callable[..., Any], types: Any, arguments: Any, options: Any) -> Any:
        own = FUNCTIONS.get(function)
        return NotImplemented if own is None else own(*arguments, **options)
