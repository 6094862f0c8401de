#!/usr/bin/env python3
"""Writes impls that differ from type to type by a name, a width or a table, from the templates in scripts/impls/. With --check it compares
instead.

Rust would leave them to macros, but an impl that a macro writes is not proved here, and one impl for all types of a bound is refused
where other types have impls of their own. The template scripts/impls/CRATE/FILE.rt.template makes crates/CRATE/src/FILE.rt. It is the text of that
file below the first line, but for these, in Python over the names of this script:

    $NAME, ${NAME}, $(EXPRESSION)   a value
    % STATEMENT                     a line that is run; what one with a colon at its end holds goes as far as the line `% end`
"""

import re

import fields
import files

# The levels of the tower by their bits, and the numbers of those above 8 bits.
LEVELS = {it.bits: it for it in fields.FIELDS if it.level is not None}
UPPER = {bits: it.level for bits, it in LEVELS.items() if bits > 8}

# A level and a level inside it, for each pair between which the library converts.
PAIRS = [(upper, lower) for upper in UPPER for lower in (8, *UPPER) if lower < upper] + [(128, 2)]

# The fields of polynomials to which the library has changes of basis.
MODULI = [it for it in fields.FIELDS if it.modulus]

# The unsigned integers of Rust by their bits, and how many bytes each has.
UNSIGNED = {8: "one", 16: "two", 32: "four", 64: "eight", 128: "sixteen"}

# How many columns the head of an impl may have.
COLUMNS = 100

# What stands for a value in a template.
VALUE = re.compile(r"\$(\w+|\{\w+\}|\((?:[^()]|\((?:[^()]|\([^()]*\))*\))*\))")


def number(value):
    """A number as a literal: of more than one digit in hexadecimal, with the digits in groups of four."""
    return str(value) if value < 10 else f"0x{value:_x}"


def power(bits):
    """2 to the number of bits."""
    return number(1 << bits)


def low_bits(name, bits, widest):
    """The word of the low bits of an integer of the widest word."""
    return name if bits == widest else f"({name} % {power(bits)}) as u{bits}"


def widened(bits, widest):
    """The word `self` as an integer of the widest word."""
    return "self" if bits == widest else f"u{widest}::from(self)"


def stored(bits):
    """The bits of the word that stores an element of the level."""
    return max(bits, 8)


def operators(product, bodies, sum="bit_xor"):
    """The operators of two types: the trait, the function, what it is on numbers, and of three bodies, or of what they differ by, its own."""
    return zip(("Add", "Sub", "Mul"), ("add", "sub", "mul"), (sum, sum, product), bodies)


def program(template):
    """The template as a program, line by line, which hands what it writes to `put`."""
    depth = 0
    for line in template.splitlines(keepends=True):
        statement = line[1:].strip() if line.startswith("%") else ""
        depth -= statement.partition(" ")[0] in ("end", "elif", "else:")
        parts = [it.strip("{}") if at % 2 else repr(it) for at, it in enumerate(VALUE.split(line))]
        yield "" if statement == "end" else "    " * depth + (statement or f"put({', '.join(parts)})")
        depth += statement.endswith(":")


def broken(line):
    """The line, or two for the head of an impl that would be too long."""
    is_long = line.startswith("impl") and len(line.removesuffix(" {")) + 2 > COLUMNS
    return line.replace(" for ", "\n    for ") if is_long else line


def written(path):
    """What a template writes."""
    out, lines = [], program(path.read_text(encoding="utf-8"))
    exec(compile("\n".join(lines), path, "exec"), {**globals(), "put": lambda *parts: out.extend(map(str, parts))})
    return "\n".join(map(broken, "".join(out).split("\n")))


if __name__ == "__main__":
    folder, head = files.TOP / "scripts/impls", f"// {files.generated('make_impls.py')}\n"
    for path in sorted(folder.rglob("*.template")):
        crate, _, rest = path.relative_to(folder).as_posix().partition("/")
        files.keep(files.CRATES / crate / "src" / rest.removesuffix(".template"), head + written(path))
