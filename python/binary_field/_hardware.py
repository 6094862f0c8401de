"""The switch to the functions that go by the processor's carryless multiply instruction."""

import types
import warnings

from ._library import begin_kernels, use_kernels

NO_DIFFERENCE, NO_HARDWARE = 0, 32


class Hardware:
    """What `hardware` returns: true where arrays go by kernels. As the context of a `with` it puts back what was before, at the end."""

    __slots__ = ("_before", "_is_on")

    def __init__(self, is_on: bool, before: bool) -> None:
        self._is_on = is_on
        self._before = before

    def __bool__(self) -> bool:
        return self._is_on

    def __repr__(self) -> str:
        return f"<hardware: {'kernels' if self._is_on else 'proved functions'}>"

    def __enter__(self) -> "Hardware":
        return self

    def __exit__(self, kind: type[BaseException] | None, error: BaseException | None, trace: types.TracebackType | None) -> None:
        use_kernels(self._before)


def hardware(on: bool = True) -> Hardware:
    """Has arrays of `Ghash128` and `Poly64`, hashes of messages, whole and in pieces, and single products of `BinaryField64` and
    `BinaryField128` go by the carryless multiply instruction from now on, in all threads; with `on` false they go by the proved functions
    again, as they do where nobody calls this. A hash in pieces goes on either way. What it returns is true where they go by the
    instruction.

    These functions are not proved. At the first call all are compared with the proved ones in this process, which takes some milliseconds:
    products on a basis, which determines them; transforms, hashes of many blocks and other schedules at drawn operands, which is not complete.
    Where the library was built without them, or the processor has no such instruction, nothing changes; where one of them differs,
    nothing changes and a warning says so.

    >>> with bf.hardware(False):
    ...     bf.Ghash128([2, 3]) * bf.Ghash128([2, 3])
    Ghash128([0x4, 0x5])
    """
    is_on = False
    if on:
        status = begin_kernels()
        is_on = status == NO_DIFFERENCE
        if status not in (None, NO_DIFFERENCE, NO_HARDWARE):
            told = "binary_field: a function by the carryless multiply instruction differs from the proved one; none is used"
            warnings.warn(told, RuntimeWarning, 2)
    return Hardware(is_on, use_kernels(is_on))
