"""What functions of numpy that sort, find and compare are over elements: their order is that of the representations as
integers.

No order of a field agrees with its sums and products, so that nothing else than where elements stand can depend on this
one.
"""

from __future__ import annotations

from typing import Any, Callable

import numpy as np

from ._arrays import FieldArray, implement
from ._library import Words


def _ranks(*values: Any) -> tuple[list[Words], Callable[[Any], Any]]:
    """Arrays of integers in the order of the elements of some arrays, of which one at least has a field, and what goes
    back."""
    field = next(type(it) for it in values if isinstance(it, FieldArray))
    arrays = [field._operand(it) for it in values]
    if not field._dtype().names:
        return [it._words for it in arrays], field._of
    words = np.concatenate([it._words.ravel() for it in arrays])
    # The last key is the first that is compared, and the words of an element are stored lowest first.
    order = np.lexsort([words["words"][:, at] for at in range(words["words"].shape[1])])
    ordered = words[order]
    is_new = np.ones(words.size, bool)
    is_new[1:] = (ordered["words"][1:] != ordered["words"][:-1]).any(axis=1)
    ranks, known = np.empty(words.size, np.intp), ordered[is_new]
    ranks[order] = np.cumsum(is_new) - 1
    parts = np.split(ranks, np.cumsum([it.size for it in arrays])[:-1])
    return [part.reshape(it.shape) for part, it in zip(parts, arrays)], lambda it: field._of(known[it])


def _sort(a: Any, axis: Any = -1, kind: Any = None) -> Any:
    (ranks,), back = _ranks(a)
    return back(np.sort(ranks, axis, kind))


def _of_ranks(function: Callable[..., Any]) -> Callable[..., Any]:
    """A function whose results are places or truths."""
    return lambda a, *more, **options: function(_ranks(a)[0][0], *more, **options)


def _extreme(function: Callable[..., Any]) -> Callable[..., Any]:
    """The least or the greatest element."""

    def found(a: Any, axis: Any = None, out: Any = None, **options: Any) -> Any:
        given = [options["initial"]] if "initial" in options else []
        (ranks, *initial), back = _ranks(a, *given)
        if given:
            options["initial"] = initial[0][()]
        return a._left_in(out, back(np.asarray(function(ranks, axis, **options))))

    return found


def _unique(ar: Any, *more: Any, **options: Any) -> Any:
    (ranks,), back = _ranks(ar)
    found = np.unique(ranks, *more, **options)
    return (back(found[0]), *found[1:]) if isinstance(found, tuple) else back(found)


def _isin(element: Any, test_elements: Any, *more: Any, **options: Any) -> Any:
    elements, others = _ranks(element, test_elements)[0]
    return np.isin(elements, others, *more, **options)


def _searchsorted(a: Any, v: Any, *more: Any, **options: Any) -> Any:
    ordered, values = _ranks(a, v)[0]
    return np.searchsorted(ordered, values, *more, **options)


def _of_sets(function: Callable[..., Any]) -> Callable[..., Any]:
    """A function of two arrays as sets."""

    def found(ar1: Any, ar2: Any, *more: Any, **options: Any) -> Any:
        ranks, back = _ranks(ar1, ar2)
        made = function(*ranks, *more, **options)
        return (back(made[0]), *made[1:]) if isinstance(made, tuple) else back(made)

    return found


_SETS: tuple[Any, ...] = (np.intersect1d, np.setdiff1d, np.setxor1d, np.union1d)
implement({it: _of_sets(it) for it in _SETS})
implement({
    np.argmax: _of_ranks(np.argmax),
    np.argmin: _of_ranks(np.argmin),
    np.argsort: _of_ranks(np.argsort),
    np.isin: _isin,
    np.max: _extreme(np.max),
    np.min: _extreme(np.min),
    np.searchsorted: _searchsorted,
    np.sort: _sort,
    np.unique: _unique,
})
