"""Every function of numpy over arrays of elements, with operands of many kinds: check_numpy.py [-v], or check_numpy.py
SEED for others.

A function that takes an array may refuse elements, by any exception. Where it returns, what it gives and what it leaves
in its operands has to be what it makes of numpy's arrays of objects, of which each computes in the field by the
definitions. A function whose result only tells or moves elements by the order of their representations is compared with
what it makes of these integers. So no function computes with representations unseen, and none loses or doubles
elements.
"""

import collections
import contextlib
import copy
import io
import itertools
import random
import re
import sys
import unittest
import warnings

import check_arrays
import numpy as np

import binary_field as bf

FIELDS = [bf.Gf2, bf.Rijndael8b, bf.Ghash128]
# The functions that go by the order of representations, and say so.
BY_REPRESENTATION = {
    "argmax", "argmin", "argsort", "amax", "amin", "in1d", "intersect1d", "isin", "max", "min", "searchsorted",
    "setdiff1d", "setxor1d", "sort", "union1d", "unique",
}
# The functions of matrices and of labels, which numpy has not over objects: the other tests compare them with the
# definitions.
NOT_OVER_OBJECTS = {
    "np.einsum", "np.linalg.det", "np.linalg.inv", "np.linalg.matrix_power", "np.linalg.matrix_rank", "np.linalg.solve",
    "np.log",
}
# The functions whose result is a truth, where that of objects is one of them.
OF_TRUTHS = {"all", "alltrue", "any", "sometrue"}
# The functions that take counts: numpy itself makes integers of these by name, as `np.asarray(a, int)` does.
OF_COUNTS = {"np.repeat", "np.random.Generator.multinomial", "np.random.RandomState.multinomial"}
# What has no array, acts on files, on the screen or on numpy itself, or tells of types; a result that is not filled;
# what does nothing; and `as_strided`, which reads any memory as objects.
LEFT_OUT = {
    "DataSource", "add_docstring", "add_newdoc", "add_newdoc_ufunc", "as_strided", "bmat", "byte_bounds", "bytes",
    "can_cast", "common_type", "compare_chararrays", "deprecate", "deprecate_with_doc", "disp", "empty", "empty_like",
    "find_common_type", "fromfile", "fromregex", "genfromtxt", "get_array_wrap", "get_bit_generator", "get_include",
    "get_state", "getbufsize", "geterr", "geterrcall", "geterrobj", "info", "isfortran", "issctype", "issubclass_",
    "issubdtype", "issubsctype", "load", "loadtxt", "lookfor", "maximum_sctype", "memmap", "min_scalar_type",
    "mintypecode", "obj2sctype", "printoptions", "promote_types", "result_type", "safe_eval", "save", "savetxt",
    "savez", "savez_compressed", "sctype2char", "seed", "set_bit_generator", "set_numeric_ops", "set_printoptions",
    "set_state", "set_string_function", "setbufsize", "seterr", "seterrcall", "seterrobj", "show_config",
    "show_runtime", "source", "test", "typename", "who",
}
METHODS = ("accumulate", "at", "outer", "reduce", "reduceat")
# So many more operands of each function are drawn.
DRAWN = 12


def functions():
    """Each function of numpy by its name, as a function of nothing that makes it: a generator begins anew for each
    call."""
    for prefix, module in (
        ("np", np), ("np.linalg", np.linalg), ("np.fft", np.fft), ("np.emath", np.emath),
        ("np.lib.stride_tricks", np.lib.stride_tricks),
    ):
        for name in dir(module):
            found = getattr(module, name)
            if callable(found) and not isinstance(found, type) and not name.startswith("_") and name not in LEFT_OUT:
                yield f"{prefix}.{name}", lambda found=found: found
                # numpy itself ends without an exception where a method is called of a ufunc of one operand.
                for method in METHODS if getattr(found, "nin", 0) == 2 else ():
                    yield f"{prefix}.{name}.{method}", lambda found=found, method=method: getattr(found, method)
    for kind, made in (("Generator", np.random.default_rng), ("RandomState", np.random.RandomState)):
        for name in dir(made(1)):
            if callable(getattr(made(1), name)) and not name.startswith("_") and name not in LEFT_OUT:
                yield f"np.random.{kind}.{name}", lambda made=made, name=name: getattr(made(1), name)
    for name in ("shuffle", "sample", "choices"):
        yield f"random.{name}", lambda name=name: getattr(random.Random(1), name)


class Operands:
    """What arguments are drawn from, in one of the two ways of check_arrays.World; each call has copies of its own."""

    def __init__(self, field, is_plain):
        world = check_arrays.World(field, is_plain)
        square = world.make([1, 0, 1, 1, 1, 0, 0, 1, 1]).reshape(3, 3)
        self.known = {
            "m": world.m, "n": world.n, "v": world.v, "w": world.w, "x": world.v[0], "s": square, "e": world.v[:0],
        }

    def has_elements(self, word):
        if isinstance(word, tuple):
            return any(map(self.has_elements, word))
        return isinstance(word, str) and word in self.known

    def made(self, words):
        """Arguments as they are written: names of arrays, and numbers and other words as they are."""
        return [self.one(it) for it in words]

    def one(self, word):
        if isinstance(word, str) and word in self.known:
            return copy.copy(self.known[word])
        if isinstance(word, tuple) and word and word[0] in ("list", "tuple"):
            return (list if word[0] == "list" else tuple)(self.one(it) for it in word[1:])
        return np.array(word) if isinstance(word, list) else word


def summed(row):
    """A function of a row, for functions that call one."""
    return row.sum() if hasattr(row, "sum") else row


# Arguments that are tried with every function: those that most functions are called with.
SOME = [
    ("v",), ("m",), ("n",), ("s",), ("x",), ("e",), ("v", "v"), ("n", "w"), ("s", "s"), ("s", "w"), ("v", "x"),
    ("m", "n"), ("v", 0), ("n", 0), ("n", 1), ("m", 2), ("v", 1), (1, "v"), ("v", 7), (7, "v"), ("v", [0, 1, 1, 0, 1]),
    ([0, 1, 1, 0, 1], "v"), ("v", [3, 4, 0, 1, 9]), ([3, 4, 0, 1, 9], "v"), ("v", True),
    ("v", [True, False, True, True, False]), ([True, False, True, True, False], "v"),
    ([True, False, True, True, False], "v", "v"), ([True, False, True, True, False], "v", 0), (("list", "v", "v"),),
    (("tuple", "v", "v"),), (("list", "v", "w"),), (("list", "s", "n"), 0), ("v", [0, 2], "w"), ("v", [0, 2], "x"),
    ("n", [[0], [1], [2], [0]], "n", 1), ("v", [0, 2, 1]), ("n", [0, 2], 0), ("m", 0, 1), ("m", 1, 0), ("n", 0, 1, 0),
    ("m", (0, 1)), ("n", (3, 4)), ("n", -1), ("v", "w", "same"), (summed, 0, "n"), (summed, "v"),
    ("v", ("list", "x", "x")), (("list", "x", "x"),), ("v", 2, 0), ("v", "v", "v"), ("s", 3), ("s", -1), ("v", [0], 1),
    ([0, 1], "v"), ("i,i", "v", "v"), ("ij,jk->ik", "s", "s"), ("ii->i", "s"), ("v", (1, 2)),
    ("n", ((1, 0), (2, 1)), "edge"), ("n", 1, "mean"), ("v", 2, "reflect"), ("v", "v", 1), (5, "v"), ("v", "w", "w"),
    ("v", None), (None, "v"), ("v", "x", "x"),
]
PARTS = [
    "v", "m", "n", "w", "s", "x", "e", 0, 1, 2, -1, 7, None, [0, 1, 1, 0, 1], [1, 0, 1], [9, 3, 0], (0, 1), (1, 0), 0.5,
    ("list", "v", "v"), ("tuple", "n", "w"), ("list", "x", "x", 1), [True, False, True], [2, 0, 1],
]
NAMED = [
    {}, {}, {}, {"axis": 0}, {"axis": 1}, {"axis": None}, {"axis": (0, 1)}, {"keepdims": True}, {"dtype": int},
    {"dtype": object}, {"dtype": float}, {"out": "v"}, {"out": "w"}, {"out": "s"}, {"out": [0, 0, 0, 0, 0]},
    {"out": [0, 0, 0]}, {"where": [True, False, True]}, {"initial": "x"}, {"initial": 1}, {"initial": 7}, {"n": 1},
    {"k": 1}, {"mode": "wrap"}, {"return_counts": True}, {"return_index": True}, {"prepend": "x"}, {"append": 7},
    {"size": 3}, {"p": None}, {"fill_value": 7}, {"constant_values": 7}, {"shape": (2, 2)}, {"weights": [1, 0, 1]},
    {"side": "right"}, {"copy": False},
]


def plain_number(value):
    """An element or a number as an integer, where it is one."""
    if isinstance(value, float) and value.is_integer():
        return int(value)
    return value if isinstance(value, (float, complex, str, bytes, type(None))) else int(value)


def read(value):
    """What a call gave or left: numbers with their shape, and other things as they are."""
    if isinstance(value, (list, tuple)):
        return [read(it) for it in value]
    if isinstance(value, dict):
        return {name: read(it) for name, it in value.items()}
    if isinstance(value, (bf.FieldArray, np.ndarray, np.generic, check_arrays.Plain, int)):
        array = value if isinstance(value, (bf.FieldArray, np.ndarray)) else np.array(value, dtype=object)
        return np.shape(array), [plain_number(it) for it in array.ravel().tolist()]
    if isinstance(value, (str, bytes, float, complex, type(None), np.dtype, slice)):
        return value
    if isinstance(value, collections.abc.Iterator):
        return [read(it) for it in itertools.islice(value, 100)]
    return type(value).__name__


def called(made, arguments, named):
    """What a call gives and leaves of its arguments, or the exception."""
    warnings.simplefilter("ignore")
    random.seed(1)
    with contextlib.redirect_stdout(io.StringIO()), np.errstate(all="ignore"):
        try:
            result = made()(*arguments, **named)
            return read(result), read(arguments), read(named)
        except Exception as error:  # pylint: disable=broad-except
            return error


def zeros(value):
    """What was read, with 0 at the places that nobody wrote, as the package has there."""
    if isinstance(value, (list, tuple)):
        return type(value)(zeros(it) for it in value)
    return 0 if value is None else value


class EveryFunction(unittest.TestCase):
    """Each function over elements, over objects that compute in the field and, where only the order counts, over
    integers."""

    def faults(self, field, seed):
        """The calls that went wrong, and the number of those that gave something."""
        ours, plain = Operands(field, False), Operands(field, True)
        draw, wrong, given = random.Random(seed), [], 0
        for name, made in functions():
            count = DRAWN if seed == 1 else 20 * DRAWN
            drawn = [(draw.choices(PARTS, k=draw.randint(1, 3)), draw.choice(NAMED)) for _ in range(count)]
            calls = [(it, {}) for it in SOME] + drawn
            for words, named in calls:
                # Where only the result is of elements, as of a function of one operand, nothing says what integers are
                # in the field.
                is_of_one = getattr(made(), "nin", 0) == 1
                others = [it for key, it in named.items() if key != "out"]
                if not any(map(ours.has_elements, words[:1] if is_of_one else [*words, *others])):
                    continue
                found = called(made, ours.made(words), {key: ours.one(it) for key, it in named.items()})
                if isinstance(found, Exception):
                    continue
                given += 1
                wanted = self.wanted(name, made, words, named, plain)
                if not self.agree(name, found, wanted):
                    wrong.append(f"{name}{tuple(words)} {named}: {found}, and not {wanted!r}")
        return wrong, given

    def wanted(self, name, made, words, named, plain):
        """What a call has to give."""
        found = called(made, plain.made(words), {key: plain.one(it) for key, it in named.items()})
        if isinstance(found, Exception) and (name.rpartition(".")[2] in BY_REPRESENTATION or name in OF_COUNTS):
            numbers = [self.numbers(plain.one(it)) for it in words]
            found = called(made, numbers, {key: self.numbers(plain.one(it)) for key, it in named.items()})
        return found

    def agree(self, name, found, wanted):
        """Whether a call gave what it has to."""
        if isinstance(wanted, Exception):
            # An array that stands where a type is wanted names its own; and sums and products of no objects are unknown
            # to numpy.
            unknown = "dtype|data type|does not have an identity|no attribute 'reshape'|no callable"
            return name in NOT_OVER_OBJECTS or bool(re.search(unknown, str(wanted)))
        if name.rpartition(".")[2] in OF_TRUTHS:
            found, wanted = (((it[0][0], [bool(one) for one in it[0][1]]), *it[1:]) for it in (found, wanted))
        if "where" in wanted[2]:
            found, wanted = zeros(found), zeros(wanted)
        # What is no number is not equal to itself.
        return repr(found) == repr(wanted)

    def numbers(self, value):
        if isinstance(value, (list, tuple)):
            return type(value)(self.numbers(it) for it in value)
        if isinstance(value, check_arrays.Plain):
            return int(value)
        if isinstance(value, np.ndarray) and value.dtype == object and value.size:
            return np.vectorize(int, otypes=[object])(value)
        return value

    def test_each(self):
        for field in FIELDS:
            wrong, given = self.faults(field, SEED)
            self.assertFalse(wrong, f"over {field.__name__}: " + "\n".join(wrong))
            self.assertGreater(given, 1000)


SEED = int(sys.argv.pop()) if sys.argv[-1].isdigit() else 1

if __name__ == "__main__":
    unittest.main()
