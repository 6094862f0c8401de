"""The library, found and loaded, and calls of its functions.

It is looked for in the folder that the environment variable BINARY_FIELD_LIBRARY names, then beside this file, where a wheel has
it, and then where the system looks for libraries. It has the form of its functions that runs best on this processor; `processor` names it.
"""

import ctypes
import functools
import os
import pathlib
from typing import Any, Callable

import numpy as np

from ._functions import FIELD_WORDS, FUNCTIONS, STATE_WORDS, STATUSES, VERSION
from ._workers import get_workers, in_pieces

ARRAYS = ("in", "inout", "out", "space")
WRITTEN = ("inout", "out", "result", "state", "space")
NARROW = {"u8": ctypes.c_uint8, "u16": ctypes.c_uint16, "u32": ctypes.c_uint32, "u64": ctypes.c_uint64}
# What holds an element in an array of numpy: an unsigned integer or, of 128 and 192 bits, a structure of words of 64, the lowest first. It
# has the alignment of its words, so that numpy says of an array whether it has that.
Words = np.ndarray[Any, Any]
WORDS: dict[str, np.dtype[Any]] = {it: np.dtype(f"<u{int(it[1:]) // 8}") for it in NARROW}
WORDS |= {it: np.dtype([("words", "<u8", (int(it[1:]) // 64,))], align=True) for it in ("u128", "u192")}
# A hash in pieces.
WORDS |= {it: np.dtype([("words", "<u8", (STATE_WORDS,))], align=True) for it in ("ghash_state", "polyval_state")}
# A field that is chosen.
WORDS["field"] = np.dtype([("words", "<u8", (FIELD_WORDS,))], align=True)
# What the functions of a fixed field are for one that is chosen, by their names.
CHOSEN: dict[str, Callable[..., None]] = {}
# Whether a word was corrected.
WORDS["bool"] = np.dtype(np.bool_)
# A place in an array, as columns of matrices are told.
WORDS["usize"] = PLACE = np.dtype(np.uintp)
# The functions whose result at a place is made of what is at that place of the arrays, and of all of those that are taken whole.
PLACE_BY_PLACE = {
    "add", "add_scaled", "batch_inverse", "butterfly_forward", "butterfly_inverse", "evaluate", "inverse", "linear_map", "multiply",
    "multiply_by", "power", "square", "square_root",
}
TAKEN_WHOLE = ("coefficients", "images")
# Every group of functions that go by kernels, as bf_hw_begin takes it.
EVERY_GROUP = 15
# What an empty array is passed as: the address of something.
EMPTY = ctypes.create_string_buffer(32)


def _load() -> tuple[ctypes.CDLL, dict[str, Any], str]:
    """The library, its functions by their names, each with its types, and the processor whose form of them is called."""
    named = os.environ.get("BINARY_FIELD_LIBRARY")
    beside = pathlib.Path(__file__).with_name("libbinary_field.so")
    path = f"{named}/{beside.name}" if named else str(beside) if beside.exists() else beside.name
    try:
        library = ctypes.CDLL(path)
    except OSError as error:
        raise ImportError(f"binary_field: {error}; scripts/build-library makes the library, and BINARY_FIELD_LIBRARY names it") from error
    library.bf_version.restype = ctypes.c_uint32
    if library.bf_version() != VERSION:
        raise ImportError(f"binary_field: {path} has version {library.bf_version()}, but this package needs {VERSION}")
    functions = {name: _function(library, f"bf_{name}", name) for name in FUNCTIONS}
    library.bf_processor.restype = ctypes.c_char_p
    return library, functions, library.bf_processor().decode("ascii")


def _function(library: ctypes.CDLL, symbol: str, name: str) -> Any:
    """A function of the library that has the parameters of the named one."""
    function = library[symbol]
    function.restype = ctypes.c_uint32
    function.argtypes = [it for kind, _, word in FUNCTIONS[name] for it in _types(kind, word)]
    return function


def _types(kind: str, word: str) -> list[Any]:
    if kind in ARRAYS:
        return [ctypes.c_void_p, ctypes.c_size_t]
    return [NARROW[word]] if kind == "number" or (kind == "scalar" and word in NARROW) else [ctypes.c_void_p]


_LIBRARY, _FUNCTIONS, _PROCESSOR = _load()


def processor() -> str:
    """The processor whose form of the functions is called: "x86-64-v2", "x86-64-v3" or "aarch64".

    The library chooses it when it is loaded, as the best that runs on this processor. Where the environment variable
    BINARY_FIELD_PROCESSOR is x86-64-v2 then, that form is taken; the variable never raises the choice. Results are the same by each form.

    >>> bf.processor() in ("x86-64-v2", "x86-64-v3", "aarch64")
    True
    """
    return _PROCESSOR


# A parameter: its name, whether it is a plain number, an array, and written, and the type of numpy that holds an element.
Parameter = tuple[str, bool, bool, bool, np.dtype[Any]]
# Arrays of at most so many elements are copied to a room and out of it, which takes less time than to ask each for its address.
FEW = 128
# Memory for a call of few elements: of each parameter but plain numbers an array and its address, the first element of each, and the call
# of the function with those. The arrays are of integers: numpy copies these in less time than structures.
Room = tuple[list[tuple[Words, int]], list[Words], Callable[[], int]]


def _parameter(kind: str, name: str, word: str) -> Parameter:
    is_plain = kind == "number" or (kind == "scalar" and word in NARROW)
    return name, is_plain, kind in ARRAYS, kind in WRITTEN, WORDS[word]


class Calls:
    """The functions as they are called, each with its parameters; and of each the rooms that are free. A thread takes a room out of the
    list and puts it back behind the call, so that no two use one at once."""

    def __init__(self, functions: dict[str, Any]) -> None:
        self.called: dict[str, tuple[Any, list[Parameter]]] = {}
        self.rooms: dict[str, list[Room]] = {name: [] for name in FUNCTIONS}
        for name, function in functions.items():
            self.called[name] = function, [_parameter(*it) for it in FUNCTIONS[name]]

    def room(self, name: str) -> Room:
        """Memory for a call of a function of few elements, each array a part of one of the function's."""
        function, parameters = self.called[name]
        arrays = [np.empty(FEW, dtype) for _, is_plain, _, _, dtype in parameters if not is_plain]
        placed = [(_integers(it), it.ctypes.data) for it in arrays]
        return placed, [it[:1].reshape(()) for it in arrays], functools.partial(function, *(value for _, it in placed for value in (it, 1)))


_PROVED = Calls(_FUNCTIONS)
# What every call goes by: the proved functions, or those that go by kernels where there are such.
_calls = _PROVED


def _kernels() -> Calls | None:
    """The functions, of which those that the library also has by the carryless multiply instruction are these; nothing without such."""
    if not hasattr(_LIBRARY, "bf_hw_begin"):
        return None
    found = {name: _function(_LIBRARY, f"bf_hw_{name}", name) for name in FUNCTIONS if hasattr(_LIBRARY, f"bf_hw_{name}")}
    return Calls(_FUNCTIONS | found)


_KERNELS = _kernels()


def begin_kernels() -> int | None:
    """The status of the library where all groups of kernels are asked for; nothing where it has none."""
    if _KERNELS is None:
        return None
    _LIBRARY.bf_hw_begin.restype = ctypes.c_uint32
    _LIBRARY.bf_hw_begin.argtypes = [ctypes.c_uint32]
    return int(_LIBRARY.bf_hw_begin(EVERY_GROUP))


def use_kernels(is_on: bool) -> bool:
    """Has every call from now on go by the kernels, or by the proved functions; whether it went by the kernels before."""
    global _calls
    before = _calls is not _PROVED
    _calls = _KERNELS if is_on and _KERNELS is not None else _PROVED
    return before


def _arrays_of(name: str) -> tuple[list[tuple[int, int]], list[int]]:
    """Where a function that goes place by place has the addresses of arrays among what is passed: of those that are cut, each with the
    bytes of an element, and of those that are taken whole. Nothing of another function."""
    cut: list[tuple[int, int]] = []
    whole: list[int] = []
    own, at = name.partition("_")[2].removesuffix("_in_place"), 0
    for kind, parameter, word in FUNCTIONS[name] if own in PLACE_BY_PLACE or own.startswith("to_") else []:
        if kind == "in" and parameter in TAKEN_WHOLE:
            whole.append(at)
        elif kind in ARRAYS:
            cut.append((at, WORDS[word].itemsize))
        at += len(_types(kind, word))
    return cut, whole


# The functions that threads can share.
_SHARED = {name: found for name in FUNCTIONS if (found := _arrays_of(name))[0]}


def is_packed(words: Words) -> bool:
    """Whether the elements lie one after the other, each where the processor wants it."""
    return words.flags.c_contiguous and words.flags.aligned


def packed(words: Words) -> Words:
    """The array, or a copy of it that is packed."""
    return words if is_packed(words) else np.array(words, order="C")


def _integers(words: Words) -> Words:
    """The integers that elements are, or that their structures hold."""
    integers: Words = words["words"] if words.dtype.names else words
    return integers


def _taken(calls: Calls, name: str) -> Room:
    """A room that is free, or a new one."""
    try:
        return calls.rooms[name].pop()
    except IndexError:
        return calls.room(name)


def call_of_one(name: str, *elements: Words) -> Words:
    """What a function that reads arrays and then writes one makes of single elements, each an array of no dimensions of the function's words.
    They are copied to where the function finds them, which takes a fifth of the time that it takes to ask an array for its address."""
    calls = _calls
    if name in CHOSEN:
        made = np.empty((), elements[0].dtype)
        CHOSEN[name](*elements, made)
        return made
    room = _taken(calls, name)
    _, ones, function = room
    for array, it in zip(ones, elements):
        array[()] = it
    _test(name, function())
    result = np.empty((), ones[-1].dtype)
    result[()] = ones[-1]
    calls.rooms[name].append(room)
    return result


def call_of_few(name: str, *arguments: Any) -> Words:
    """What a function makes that writes, as its last parameter, an array of the shape of its first one. The arguments are those before it,
    as `call` takes them, but that an array need not be packed; none has more than FEW elements. They are copied like single elements."""
    calls = _calls
    if name in CHOSEN:
        made = np.empty(arguments[0].shape, arguments[0].dtype)
        CHOSEN[name](*arguments, made)
        return made
    room = _taken(calls, name)
    function, parameters = calls.called[name]
    free = iter(room[0])
    given: list[int] = []
    for (parameter, is_plain, is_array, _, dtype), value in zip(parameters, arguments):
        if is_plain:
            given.append(value)
            continue
        if value.dtype is not dtype and value.dtype != dtype:
            raise TypeError(f"{name}: {parameter} must be an array of {dtype}")
        array, start = next(free)
        size = value.size
        array[:size] = _integers(value if value.ndim < 2 else value.ravel())
        given += (start, size) if is_array else (start,)
    (array, start), first = next(free), arguments[0]
    size = first.size
    _test(name, function(*given, start, size))
    result = np.empty(first.shape, parameters[-1][-1])
    _integers(result if first.ndim == 1 else result.reshape(size))[...] = array[:size]
    calls.rooms[name].append(room)
    return result


def _test(name: str, status: int) -> None:
    """Raises what a status says."""
    if status:
        short, text = STATUSES[status]
        raised = {"BF_MEMORY": MemoryError, "BF_UNSOLVABLE": np.linalg.LinAlgError}.get(short, ValueError)
        raise raised(f"{name}: {text}")


def call(name: str, *arguments: Any) -> None:
    """Calls a function. An array is one of numpy of the function's words, packed where it is written; a scalar up to 64 bits and a number
    are integers, and every other scalar and result is an array of one element.

    What the library reads and writes is exactly what numpy holds, and what it writes nothing else shares: no other place hands out an
    address, but for `Calls.room`, whose arrays nobody else has."""
    if name in CHOSEN:
        return CHOSEN[name](*arguments)
    function, parameters = _calls.called[name]
    given: list[int] = []
    held: list[tuple[Words, int, int, bool]] = []
    for (parameter, is_plain, is_array, is_written, dtype), value in zip(parameters, arguments, strict=True):
        if is_plain:
            given.append(value)
            continue
        flags, size = value.flags, value.size
        if not (flags.c_contiguous and flags.aligned):
            value = None if is_written else packed(value)
        if value is None or value.dtype != dtype:
            raise TypeError(f"{name}: {parameter} must be a contiguous array of {dtype}")
        if is_written and not flags.writeable:
            raise ValueError(f"{name}: {parameter} is read-only")
        start = value.ctypes.data if size else ctypes.addressof(EMPTY)
        given.append(start)
        held.append((value, start, start + value.nbytes, is_written))
        if is_array:
            given.append(size)
        elif size != 1:
            raise TypeError(f"{name}: {parameter} must be one element")
    for at, (_, start, end, is_written) in enumerate(held):
        for _, other, stop, is_other in held[:at]:
            if start < stop and other < end and (is_written or is_other):
                raise ValueError(f"{name}: an array that is written shares memory with another")
    shared = _SHARED.get(name) if get_workers() > 1 else None
    _test(name, in_pieces(function, given, *shared) if shared else function(*given))
