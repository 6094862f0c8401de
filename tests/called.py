"""A call of a function of the C library, as the cases have it: its parameters before and behind it, and its status."""

import dataclasses

from definitions import c_library

ARRAYS = ("in", "inout", "out", "space")
STATUS = {name: value for name, value, _ in c_library.STATUSES}
FUNCTIONS = {name: parameters for name, parameters, _ in c_library.functions()}
SIZES = {"u8": 1, "u16": 2, "u32": 4, "u64": 8, "u128": 16, "u192": 24, "usize": 8, "bool": 1}
SIZES |= {it: 8 * c_library.STATE_WORDS for it in ("ghash_state", "polyval_state")}
SIZES["field"] = 8 * c_library.FIELD_WORDS


@dataclasses.dataclass
class Argument:
    """What one parameter is given: an array or a scalar as it is before the call, and as it has to be after it."""

    kind: str
    name: str
    word: str
    before: list | None
    after: list
    # whether the call at length n takes the first n elements of the array, or entry n of the results
    cut: bool = True

    def bytes_of(self, values):
        return b"".join(it.to_bytes(SIZES[self.word], "little") for it in values)


@dataclasses.dataclass
class Case:
    """A call, or one for each length from 0 to `each`."""

    name: str
    arguments: list
    each: int | None = None
    status: int = 0


def case(name, *values, each=None, whole=(), status="BF_OK"):
    """A case by the values of its parameters in order: a pair, before and after, of what is read and written, the expected values
    of what is written, how many words of space there are, and the values of what is read. The parameters named in `whole` are not cut."""
    arguments = []
    for (kind, parameter, word), value in zip(FUNCTIONS[name], values, strict=True):
        if kind in ("inout", "state"):
            before, after = value
        elif kind in ("out", "result"):
            before, after = None, value
        elif kind == "space":
            # A bool is the byte 0 or 1, before the call too.
            before, after = [1] * value if word == "bool" else None, [0] * value
        else:
            before = after = list(value) if kind == "in" else [value]
        cut = each is not None and kind in (*ARRAYS, "result") and parameter not in whole
        arguments.append(Argument(kind, parameter, word, before, after, cut))
    return Case(name, arguments, each, STATUS[status])


def refused(it, status):
    """The case with another status: everything is as before."""
    arguments = [
        dataclasses.replace(a, after=a.before if a.before is not None else a.after, cut=False) for a in it.arguments
    ]
    return dataclasses.replace(it, arguments=arguments, each=None, status=STATUS[status])


def with_argument(it, place, **changes):
    """The case with one argument changed."""
    arguments = list(it.arguments)
    arguments[place] = dataclasses.replace(arguments[place], **changes)
    return dataclasses.replace(it, arguments=arguments)
