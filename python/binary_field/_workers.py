"""Threads for bulk calls: one, unless a call or `set_workers` says otherwise.

ctypes lets go of the interpreter's lock while a function of the library runs, so that pieces of an array are computed at once.
"""

from __future__ import annotations

import concurrent.futures
import contextlib
import contextvars
import functools
import operator
import os
from typing import Any, Callable, Iterator, Sequence

_WORKERS = contextvars.ContextVar("workers", default=1)
# A piece has so many elements or, where each result is made of a whole other array, so many products.
_PIECE = 1 << 14


# What leaves the number as it is, which takes less time than to set it.
_SAME = contextlib.nullcontext()


def set_workers(workers: int | None) -> contextlib.AbstractContextManager[None]:
    """In a `with` statement, the number of threads of bulk calls that name none, as in `scipy.fft`: -1 is one for each processor, -2 one
    fewer, and None what it was. Another thread of the program has its own number.

    >>> a = bf.Ghash128.random(1 << 16, seed=1)
    >>> with bf.set_workers(2):
    ...     b = a * a
    >>> bool((b == a.square()).all())
    True
    """
    return _SAME if workers is None else _set(_counted(workers))


@contextlib.contextmanager
def _set(workers: int) -> Iterator[None]:
    token = _WORKERS.set(workers)
    try:
        yield
    finally:
        _WORKERS.reset(token)


def get_workers() -> int:
    """The number of threads of bulk calls that name none.

    >>> bf.get_workers()
    1
    """
    return _WORKERS.get()


def _counted(workers: int) -> int:
    """A number of threads, where a negative one counts down from the number of processors."""
    count = operator.index(workers)
    count += 0 if count >= 0 else 1 + (os.cpu_count() or 1)
    if count < 1:
        raise ValueError(f"there cannot be {workers} workers: it is a number from 1 on, or from -1 down to minus that of the processors")
    return count


@functools.cache
def _pool(workers: int) -> concurrent.futures.ThreadPoolExecutor:
    return concurrent.futures.ThreadPoolExecutor(workers, "binary_field")


# A process that was forked has none of the threads.
os.register_at_fork(after_in_child=_pool.cache_clear)


def at_each(function: Callable[[Any], Any], items: Sequence[Any]) -> list[Any]:
    """What a function gives of each item, by as many threads as are set."""
    workers = get_workers()
    return list(map(function, items) if min(workers, len(items)) < 2 else _pool(workers).map(function, items))


def in_pieces(function: Callable[..., Any], given: list[int], cut: list[tuple[int, int]], whole: list[int]) -> Any:
    """The worst status of a function of the library, which is called for some contiguous pieces of arrays at once. `cut` has where in
    `given` the address of each array stands, behind which its length is, and the bytes of an element; `whole` those of arrays of which
    each piece gets all."""
    sizes = {given[at + 1] for at, _ in cut}
    size = max(sizes)
    pieces = min(get_workers(), size * max([1, *(given[at + 1] for at in whole)]) // _PIECE)
    if pieces < 2 or len(sizes) > 1:
        return function(*given)
    step = -(-size // (8 * pieces)) * 8

    def piece(start: int) -> Any:
        own = list(given)
        for at, bytes_of_one in cut:
            own[at : at + 2] = own[at] + start * bytes_of_one, min(step, size - start)
        return function(*own)

    return max(at_each(piece, range(0, size, step)))
