"""Writes FOLDER/hardware_callers.h, by which tests/hardware_calls.c calls each function of binary_field_hardware.h and the proved one.

    write_hardware_calls.py FOLDER
"""

import pathlib
import sys

from called import SIZES
from definitions import c_library
from write_cases import caller

import make_hardware


def row(name, parameters):
    """An entry of the table: both callers, and of each parameter its kind, the size of its word and its name."""
    rows = ", ".join(f'{{"{kind}", {SIZES[word]}, "{it}"}}' for kind, it, word in parameters)
    return f'    {{"{name}", call_{name}, call_hw_{name}, {len(parameters)}, {{{rows}}}}},\n'


def main():
    """Writes the file."""
    names = [name for _, _, _, of_group in make_hardware.GROUPS for name in of_group]
    rows = {name: parameters for name, parameters, _ in c_library.functions() if name in names}
    callers = "".join(caller(it, rows[it]) + caller(f"hw_{it}", rows[it]) for it in names)
    table = "".join(row(it, rows[it]) for it in names)
    text = f"/* Written by tests/write_hardware_calls.py. */\n{callers}static const struct function functions[] = {{\n{table}}};\n"
    (pathlib.Path(sys.argv[1]) / "hardware_callers.h").write_text(text, encoding="ascii")


if __name__ == "__main__":
    main()
