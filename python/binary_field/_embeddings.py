"""Embeddings of fields in fields, of which the caller chose one: by roots that the library finds, and through the bases of the fixed fields.

`Rijndael8b`, `Poly64` and `Ghash128` are fields of polynomials as they stand, and three levels of the tower their images. The others,
of 2, 4, 16 and 32 bits, lie in that of 128: a field of polynomials of so many bits is taken there, and the way back is a matrix over GF(2).
"""

from __future__ import annotations

import functools
from typing import Any

import numpy as np

from . import _chosen, _primitive
from ._chosen import ChosenField
from ._fields import BinaryField128, Ghash128
from ._library import call
from ._storage import _FIELDS, Stored

# The fixed fields of polynomials, and their moduli.
_MODULI: dict[str, int] = {field._name: modulus for modulus, field in _chosen._FIXED.items()}


@functools.cache
def _polynomials(field: Any) -> Any:
    """The field of polynomials, a class of `GF`, in which elements of a field are written before they are embedded."""
    if issubclass(field, ChosenField):
        return field
    own = field if field._has_polynomials() else _FIELDS.get(field._partner or "")
    modulus = _MODULI[own._name] if own else _primitive.conway(2, field.degree)
    return _chosen._made(field.degree, modulus, None)


@functools.cache
def _matrix(level: Any) -> Any:
    """Of a level of the tower without an isomorphic field of polynomials: the images of the powers of x, a row of bits for each."""
    powers = _polynomials(level)([1 << place for place in range(level.degree)])
    images = Ghash128._of(_images(powers, _polynomials(Ghash128))._words)
    return images.to(BinaryField128)._narrowed(level).vector("asc")


def _as_polynomials(elements: Any) -> Any:
    """Elements of a field as those of its field of polynomials."""
    field: Any = type(elements)
    polynomials = _polynomials(field)
    if issubclass(field, ChosenField):
        return elements
    if field._name in _MODULI:
        return polynomials._of(elements._words)
    if field._partner:
        return _as_polynomials(elements.to(_FIELDS[field._partner]))
    return polynomials.Vector(elements.vector("asc") @ np.linalg.inv(_matrix(field)), "asc")


def _of_polynomials(field: Any, elements: Any) -> Any:
    """The other way."""
    if issubclass(field, ChosenField):
        return elements
    if field._name in _MODULI:
        return field._of(elements._words)
    if field._partner:
        return _of_polynomials(_FIELDS[field._partner], elements).to(field)
    return field.Vector(elements.vector("asc") @ _matrix(field), "asc")


def _images(elements: Any, target: Any) -> Any:
    """The images of elements of one field of polynomials in another."""
    root, images = np.zeros((), _chosen._WIDE), np.empty(elements.shape, _chosen._WIDE)
    call("field_embedding", elements._field, target._field, root)
    call("field_embed", elements._field, target._field, root, _chosen._wide(elements._words), images)
    result = target.zeros(elements.shape)
    result._words[...] = _chosen._narrow(images, result._words.dtype)
    return result


def embedded(field: Any, elements: Any) -> Any:
    """The images in a field of elements of another."""
    source: Any = type(elements)
    if not isinstance(elements, Stored) or field.degree % source.degree:
        raise ValueError(f"no embedding takes {source.__name__} to {field.__name__}")
    if source.degree == 1 or source._name == field._name or not any(issubclass(it, ChosenField) for it in (field, source)):
        return elements.to(field)
    if field.degree > _chosen._MOST_BITS:
        raise ValueError(f"embeddings are found in fields of up to {_chosen._MOST_BITS} bits, and {field.__name__} has {field.degree}")
    return _of_polynomials(field, _images(_as_polynomials(elements), _polynomials(field)))


@functools.cache
def _rows(field: Any, subfield: Any) -> tuple[Any, Any]:
    """Columns in which the images of the bits of a subfield are independent, and the inverse of the matrix that they have there."""
    images = embedded(field, subfield([1 << place for place in range(subfield.degree)])).vector("asc")
    columns = (images.row_reduce()._words != 0).argmax(axis=1)
    return columns, np.linalg.inv(images[:, columns])


def restricted(subfield: Any, elements: Any) -> Any:
    """The elements of a subfield whose images these are; of others what the bits in some columns say."""
    columns, inverse = _rows(type(elements), subfield)
    return subfield.Vector(elements.vector("asc")[..., columns] @ inverse, "asc")
