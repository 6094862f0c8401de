#!/usr/bin/env python3
"""Writes the lines that crates/binfield is run on and the answers that it has to print: its files stdin and stdout.

    make_lines.py LINES ANSWERS

LINES is a file of the calculator's lines, and ANSWERS one of the answers that another implementation of the same
calculator gave to them, a line for a line. Of each of the calculator's fields and each operation the first 57 lines that
were answered are kept, and of each error the first 20: with 8,000 lines drawn 3,540 in all, in their order. The three lines of the worked
example stand before them, and behind them the worked lines of worked_lines.py and a last line without a line feed.

With --check alone it reads both files back, and says whether they hold those lines and nothing else.
"""

import collections
import pathlib
import re
import sys

import fields
import files
import worked_lines

FIELDS = [it.name for it in fields.FIELDS]
OPERATIONS = ["add", "mul", "square", "inv", "sqrt"]
ERRORS = [f"error {number}" for number in range(1, 7)]
ANSWERED = 57
REFUSED = 20
# What stands before the lines that were drawn: the worked example, which has an empty line.
EXAMPLE = b"t8 mul 10 10\n\nt8 inv 00\n"
EXAMPLE_ANSWERS = "41\nerror 1\nnone\n"
# What stands behind them, with no line feed at its end.
END = b"".join(line + b"\n" for line, _ in worked_lines.rows()) + b"t8 inv 00"
END_ANSWERS = "".join(answer + "\n" for _, answer in worked_lines.rows()) + "none\n"
FOLDER = files.CRATES / "binfield"


def kind_of(line, answer):
    """The kind that a line counts for: an error, or a field and an operation."""
    if answer.startswith("error "):
        return answer
    field, operation = line.decode().split()[:2]
    return (field, operation)


def wanted():
    """How many lines of each kind are kept."""
    counts = {(field, operation): ANSWERED for field in FIELDS for operation in OPERATIONS}
    return counts | {error: REFUSED for error in ERRORS}


def chosen(rows):
    """The rows that are kept, each a line and its answer."""
    left = wanted()
    kept = []
    for line, answer in rows:
        kind = kind_of(line, answer)
        if left[kind] > 0:
            left[kind] -= 1
            kept.append((line, answer))
    return kept


def rows_of(lines, answers):
    """The rows of the lines and answers of two files."""
    lines, answers = lines.split(b"\n"), answers.split("\n")
    if lines.pop() != b"" or answers.pop() != "":
        sys.exit("a file does not end with a line feed")
    return list(zip(lines, answers, strict=True))


def read(lines, answers):
    """The content of two files."""
    return pathlib.Path(lines).read_bytes(), pathlib.Path(answers).read_text(encoding="ascii")


def check():
    lines, answers = read(FOLDER / "stdin", FOLDER / "stdout")
    if not lines.startswith(EXAMPLE) or not answers.startswith(EXAMPLE_ANSWERS):
        sys.exit("the worked example does not stand at the start")
    if not lines.endswith(END) or not answers.endswith(END_ANSWERS):
        sys.exit("the worked lines do not stand at the end")
    rows = rows_of(lines.removeprefix(EXAMPLE).removesuffix(END), answers.removeprefix(EXAMPLE_ANSWERS).removesuffix(END_ANSWERS))
    counts = collections.Counter(kind_of(*row) for row in rows)
    if counts != wanted():
        sys.exit(f"there are {len(rows)} lines, and not as many of each kind as are kept")
    for _, answer in rows:
        if answer != "none" and answer not in ERRORS and not re.fullmatch("[0-9a-f]{2,48}", answer):
            sys.exit(f"{answer} is no answer")


def write(rows):
    """Writes the lines and the answers that are kept."""
    (FOLDER / "stdin").write_bytes(EXAMPLE + b"".join(line + b"\n" for line, _ in rows) + END)
    (FOLDER / "stdout").write_text(EXAMPLE_ANSWERS + "".join(answer + "\n" for _, answer in rows) + END_ANSWERS, encoding="ascii")


def main():
    if files.is_check():
        return check()
    lines, answers = sys.argv[1:]
    rows = chosen(rows_of(*read(lines, answers)))
    write(rows)


if __name__ == "__main__":
    main()
