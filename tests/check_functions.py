"""Calls every function of a built library on every case, and compares what it leaves with the definitions.

    check_functions.py LIBRARY.so

Each array stands between bytes that have to stay, alone and at the least alignment that C asks for. Inputs have to stay too. Calls without
elements come first, each in a process of its own, which a second of processor time ends: numbers of rows or of columns may be as large as a
word holds there, and no call goes over them.
"""

import ctypes
import os
import signal
import sys
import time

import called
import cases

NARROW = {"u8": ctypes.c_uint8, "u16": ctypes.c_uint16, "u32": ctypes.c_uint32, "u64": ctypes.c_uint64}
GUARD, FILL = bytes(range(0xC0, 0xD0)), 0xA5


class Buffer:
    """Bytes between guards."""

    def __init__(self, content, word):
        self.content = content
        self.memory = ctypes.create_string_buffer(len(content) + 48)
        # An address that a word's own alignment divides and no larger one.
        alignment = min(called.SIZES[word], 8)
        start = ctypes.addressof(self.memory) + 16
        start += -start % alignment
        self.address = start if start % (2 * alignment) else start + alignment
        ctypes.memmove(self.address - 16, GUARD + content + GUARD, len(content) + 32)

    def read(self):
        """The bytes, or None where a guard was changed."""
        found = ctypes.string_at(self.address - 16, len(self.content) + 32)
        return found[16:-16] if (found[:16], found[-16:]) == (GUARD, GUARD) else None


def call(library, it, is_null=False):
    """Runs one call; returns what went wrong, or nothing. An empty array has no place where `is_null` says so."""
    arguments, buffers = [], []
    for a in it.arguments:
        if a.kind in ("number", "count") or (a.kind == "scalar" and a.word in NARROW):
            arguments.append(NARROW[a.word](a.before[0]))
            continue
        after = a.bytes_of(a.after)
        before = a.bytes_of(a.before) if a.before is not None else bytes([FILL]) * len(after)
        buffer = Buffer(before, a.word)
        # Of space nothing is said.
        buffers.append((a.name, buffer, None if a.kind == "space" else before if it.status else after))
        arguments.append(ctypes.c_void_p(None if is_null and not after else buffer.address))
        if a.kind in called.ARRAYS:
            arguments.append(ctypes.c_size_t(len(a.after)))
    function = library[f"bf_{it.name}"]
    function.restype = ctypes.c_uint32
    status = function(*arguments)
    if status != it.status:
        return f"status {status} and not {it.status}"
    for name, buffer, wanted in buffers:
        found = buffer.read()
        if found is None:
            return f"bytes beside {name} were written"
        if wanted is not None and found != wanted:
            place = next(at for at, (x, y) in enumerate(zip(found, wanted)) if x != y)
            return f"{name} differs at byte {place}: {found[place:place + 16].hex()} and not {wanted[place:place + 16].hex()}"
    return None


def call_apart(library, it):
    """Runs one call in a process of its own, for a second of processor time at most; returns what went wrong, or nothing."""
    reading, writing = os.pipe()
    process = os.fork()
    if process == 0:
        failed = 1
        try:
            signal.setitimer(signal.ITIMER_VIRTUAL, 1)
            os.write(writing, (call(library, it, is_null=True) or "").encode())
            failed = 0
        finally:
            os._exit(failed)
    os.close(writing)
    with os.fdopen(reading) as pipe:
        said = pipe.read()
    status = os.waitpid(process, 0)[1]
    if os.WIFSIGNALED(status) and os.WTERMSIG(status) == signal.SIGVTALRM:
        return "no end within a second"
    return said or (f"the process ended with {status}" if status else None)


def check_empty(library):
    """Runs the calls without elements; returns how many went wrong."""
    calls, wrong = 0, 0
    for it in cases.empty_cases():
        said = call_apart(library, it)
        calls += 1
        if said:
            wrong += 1
            if wrong < 30:
                print(f"check_functions: bf_{it.name}, counts {[a.after[0] for a in it.arguments if a.kind == 'count']}: {said}")
    print(f"check_functions: {calls} calls without elements, {wrong} wrong")
    return wrong


def main():
    """Runs all cases; the exit status is 1 where one went wrong. Behind a call that does not end the others are left out."""
    library, began = ctypes.CDLL(sys.argv[1]), time.monotonic()
    if check_empty(library):
        return 1
    calls, wrong, names = 0, 0, set()
    for it in cases.all_cases():
        for n in range(it.each + 1) if it.each is not None else [0]:
            one = cases.whole_case(it, n)
            said = call(library, one)
            calls += 1
            if said:
                wrong += 1
                if wrong < 30:
                    print(f"check_functions: bf_{it.name}, lengths {[len(a.after) for a in one.arguments if a.kind in called.ARRAYS]}: {said}")
        names.add(it.name)
    if library.bf_version() != cases.definitions.VERSION:
        wrong += 1
        print(f"check_functions: bf_version returns {library.bf_version()} and not {cases.definitions.VERSION}")
    print(f"check_functions: {calls} calls of {len(names) + 1} functions, {wrong} wrong, in {time.monotonic() - began:.0f} s")
    return 1 if wrong else 0


if __name__ == "__main__":
    sys.exit(main())
