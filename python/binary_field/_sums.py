"""`np.einsum` and `np.pad` over elements, and a refusal of `np.fft` that names the transform."""

from __future__ import annotations

import math
from typing import Any, Callable, Sequence

import numpy as np

from . import _matrices
from ._arrays import FieldArray, implement

# A label of an axis: a letter or, of the axes that `...` stands for, a number that counts from the last on.
Labels = list[Any]

# ---- sums of products by labels of axes


def _labelled(arguments: Sequence[Any]) -> tuple[str, list[Any]]:
    """The subscripts and the operands, of either form in which numpy takes them."""
    if isinstance(arguments[0], str):
        return arguments[0].replace(" ", ""), list(arguments[1:])
    operands, labels = list(arguments[: len(arguments) // 2 * 2 : 2]), list(arguments[1::2])
    has_result = len(arguments) % 2
    rows = [*labels, *arguments[-1:][:has_result]]
    texts = ["".join("..." if it is Ellipsis else chr(97 + int(it)) for it in row) for row in rows]
    parts = ",".join(texts[: len(operands)])
    return f"{parts}->{texts[-1]}" if has_result else parts, operands


def _spread(text: str, more: int) -> Labels:
    """The labels of an operand, with numbers for so many axes that `...` stands for."""
    if not all(it.isalpha() for it in text.replace("...", "", 1)):
        raise ValueError(f"{text!r} are no subscripts: letters, and ... once")
    before, dots, behind = text.partition("...")
    return [*before, *(range(-more, 0) if dots else ()), *behind]


def _singled(array: Any, labels: Labels, kept: set[Any]) -> tuple[Any, Labels]:
    """The diagonal of the axes that have one label, and the sum over those whose label nobody else has."""
    words = array._words
    while len(set(labels)) < len(labels):
        label = next(it for it in labels if labels.count(it) > 1)
        first = labels.index(label)
        second = labels.index(label, first + 1)
        if words.shape[first] != words.shape[second]:
            lengths = f"{words.shape[first]} and {words.shape[second]}"
            raise ValueError(f"axes of the label {label} have the lengths {lengths}")
        words = words.diagonal(0, first, second)
        labels = [it for at, it in enumerate(labels) if at not in (first, second)] + [label]
    summed = tuple(at for at, it in enumerate(labels) if it not in kept)
    result = array._of(words)
    return result.sum(summed) if summed else result, [it for it in labels if it in kept]


def _joined(left: Any, left_labels: Labels, right: Any, right_labels: Labels, kept: set[Any]) -> tuple[Any, Labels]:
    """The product of two operands, summed over the labels that they share and nobody else has: one product of stacks of
    matrices."""
    both = [it for it in left_labels if it in right_labels]
    stack, inner = [it for it in both if it in kept], [it for it in both if it not in kept]
    rows, columns = ([it for it in labels if it not in both] for labels in (left_labels, right_labels))
    sizes: dict[Any, int] = {}
    for label, size in [*zip(left_labels, left.shape), *zip(right_labels, right.shape)]:
        if sizes.setdefault(label, size) != size:
            raise ValueError(f"axes of the label {label} have the lengths {sizes[label]} and {size}")

    def laid_out(array: Any, labels: Labels, *groups: Labels) -> Any:
        order = [labels.index(it) for group in groups for it in group]
        return array.transpose(*order).reshape(*(math.prod(sizes[it] for it in group) for group in groups))

    first = laid_out(left, left_labels, stack, rows, inner)
    made = _matrices.product(first, laid_out(right, right_labels, stack, inner, columns))
    labels = [*stack, *rows, *columns]
    return made.reshape(tuple(sizes[it] for it in labels)), labels


def _einsum(*arguments: Any, out: Any = None, optimize: Any = False) -> Any:
    """Sums of products, one pair of operands after the other."""
    text, given = _labelled(arguments)
    field = next(type(it) for it in [*given, out] if isinstance(it, FieldArray))
    arrays = [field._other(it) for it in given]
    left, arrow, right = text.partition("->")
    texts = left.split(",")
    if len(texts) != len(arrays):
        raise ValueError(f"{len(texts)} subscripts of {len(arrays)} operands")
    spread = [max(0, it.ndim - len(part.replace("...", ""))) if "..." in part else 0 for part, it in zip(texts, arrays)]
    labels = [_spread(part, more) for part, more in zip(texts, spread)]
    if any(len(names) != it.ndim for names, it in zip(labels, arrays)):
        raise ValueError("the subscripts of an operand are as many as it has axes")
    every = [it for names in labels for it in names]
    numbers = sorted({it for it in every if isinstance(it, int)})
    once = sorted(it for it in set(every) if isinstance(it, str) and every.count(it) == 1)
    result_labels = _spread(right, max(spread)) if arrow else [*numbers, *once]
    if len(set(result_labels)) < len(result_labels) or not set(numbers) <= set(result_labels) <= set(every):
        raise ValueError("the labels of the result are different ones of the operands")
    # Axes of the length 1 that `...` stands for are as long as those of others.
    lengths: dict[Any, int] = {}
    for it, names in zip(arrays, labels):
        for label, size in zip(names, it.shape):
            lengths[label] = max(lengths.get(label, 1), size) if label in numbers else 1
    rest: list[tuple[Any, Labels]] = []
    for it, names in zip(arrays, labels):
        shape = [lengths.get(label, 1) if size == 1 else size for label, size in zip(names, it.shape)]
        rest.append((it._broadcast(tuple(shape)), names))
    made: tuple[Any, Labels] | None = None
    while rest:
        behind = {label for _, names in rest[1:] for label in names} | set(result_labels)
        own = _singled(*rest.pop(0), behind | set(made[1] if made else ()))
        made = own if made is None else _joined(*made, *own, behind)
    assert made is not None
    return field._left_in(out, made[0].transpose(*(made[1].index(it) for it in result_labels)))


# ---- elements round an array

_MOVING = ("constant", "edge", "empty", "reflect", "symmetric", "wrap")


def _pad(array: Any, pad_width: Any, mode: Any = "constant", **options: Any) -> Any:
    """The elements of an array, and round it some of them or, by the mode "constant", others, of which integers are
    representations."""
    if mode not in _MOVING or options.get("reflect_type", "even") != "even":
        modes = ", ".join(_MOVING)
        raise TypeError(f"over elements an array is padded by a mode that computes nothing, one of {modes}")
    words, places = array._words.ravel(), np.arange(array.size).reshape(array.shape)
    if mode in ("constant", "empty"):
        given = array._operand(options.pop("constant_values", 0))
        words = np.concatenate([words, given._words.ravel()])
        options["constant_values"] = array.size + np.arange(given.size).reshape(given.shape)
        mode = "constant"
    return array._of(words[np.pad(places, pad_width, mode, **options)])


# ---- Fourier's transform


def _refused(name: str) -> Callable[..., Any]:
    def refused(*_: Any, **__: Any) -> Any:
        here = "transform(), along the last axis, and inverse_transform()"
        raise TypeError(f"np.fft.{name} is over the complex numbers; over a field it is {here}")

    return refused


implement({getattr(np.fft, it): _refused(it) for it in np.fft.__all__ if "freq" not in it})
implement({np.einsum: _einsum, np.pad: _pad})
