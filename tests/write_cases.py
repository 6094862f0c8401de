"""Writes the cases for the C program, so that the definitions stand once: FOLDER/cases.txt and FOLDER/callers.h.

    write_cases.py FOLDER

A case is a line `name status each count`, where `each` is -1 for a single call and `count` the number of parameters, and a line
for each parameter: its kind, the size of its word, 1 where it is cut to the length of a call, how many words it has, and its
words before and after the call in hexadecimal, `-` for none.
"""

import pathlib
import sys

import called
import cases
from definitions import c_library


def text_of(it):
    """The lines of a case."""
    lines = [f"{it.name} {it.status} {-1 if it.each is None else it.each} {len(it.arguments)}"]
    for a in it.arguments:
        after = a.bytes_of(a.after).hex() or "-"
        before = "-" if a.before is None else a.bytes_of(a.before).hex() or "-"
        lines.append(f"{a.kind} {called.SIZES[a.word]} {int(a.cut)} {len(a.after)} {before} {after}")
    return "\n".join(lines) + "\n"


def caller(name, parameters):
    """A function that takes its arguments from buffers."""
    arguments = []
    for at, (kind, _, word) in enumerate(parameters):
        c_word = c_library.WORDS[word]
        if kind in ("number", "count") or (kind == "scalar" and word not in c_library.STRUCTS):
            arguments.append(f"*(const {c_word} *)b[{at}].data")
        else:
            constant = "const " if kind in ("in", "scalar") else ""
            arguments.append(f"({constant}{c_word} *)b[{at}].data")
            if kind in called.ARRAYS:
                arguments.append(f"b[{at}].length")
    return f"static uint32_t call_{name}(struct buffer *b)\n{{\n    return bf_{name}({', '.join(arguments)});\n}}\n"


def main():
    """Writes both files."""
    folder = pathlib.Path(sys.argv[1])
    (folder / "cases.txt").write_text("".join(map(text_of, cases.all_cases())), encoding="ascii")
    rows = "".join(f'    {{"{name}", call_{name}}},\n' for name in called.FUNCTIONS)
    callers = "".join(caller(*it) for it in called.FUNCTIONS.items())
    table = f"static const struct function functions[] = {{\n{rows}}};\n"
    (folder / "callers.h").write_text(f"/* Written by tests/write_cases.py. */\n{callers}{table}", encoding="ascii")


if __name__ == "__main__":
    main()
