"""Rows that trade places one by one, which loses one of them where rows are views.

`a[i], a[j] = a[j], a[i]` reads two rows and writes one after the other. When the second one is written, the first has
already changed what it shows. So do the shuffles of Python's `random` and of numpy's generators, over whatever is no
array of numpy itself.
"""

from __future__ import annotations

import collections
import weakref
from typing import Any

import numpy as np

from ._library import Words

# So many rows at once are seen to trade places.
_KEPT = 8


class Views:
    """The views that an array gave out last and, since then, what assignments of some of them overwrote."""

    __slots__ = ("_before", "_changed", "_given")

    def __init__(self) -> None:
        self._given: collections.deque[weakref.ref[Any]] = collections.deque(maxlen=_KEPT)
        # The views that changed; and the words that were written, each with what they were.
        self._changed: list[Any] = []
        self._before: list[tuple[Words, Words]] = []

    def _forget(self) -> None:
        self._changed.clear()
        self._before.clear()

    def give(self, view: Any) -> None:
        """Notes that an index was read."""
        if self._changed:
            self._forget()
        self._given.append(weakref.ref(view))

    def assign(self, words: Words, place: Any, view: Any) -> None:
        """Comes before an assignment of an array at a place. TypeError where one assigned before it has changed what
        this array shows; then all that was written is put back."""
        if any(view is it for it in self._changed):
            for written, before in reversed(self._before):
                written[...] = before
            self._forget()
            raise TypeError(
                "rows are views, and this one was overwritten since it was read; nothing is changed: "
                "take a[[i, j]] = a[[j, i]], and to shuffle a.shuffle(rng) or a[rng.permutation(len(a))]"
            )
        alive = [it for it in (given() for given in self._given) if it is not None]
        if not any(view is it for it in alive):
            self._forget()
            return
        written = words[place]
        if not np.shares_memory(written, words) or np.shares_memory(written, view._words):
            return
        self._changed += [it for it in alive if it is not view and np.shares_memory(written, it._words)]
        if self._changed:
            self._before.append((written, written.copy()))
