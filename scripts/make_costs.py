#!/usr/bin/env python3
"""Writes what proofs cost by the table of the gate: the table of costs above it, that of changes in CONTRIBUTING.md, and the minutes that
other pages quote.

make_costs.py [--check]: the table of the gate is written by `scripts/gate-cost --page PAGE`, which then runs this. scripts/vendor and
scripts/build-library read the same table when they are called, so that one thing has one figure everywhere.
"""
import re
import sys

import crates
import files

CHANGES = "CONTRIBUTING.md"
BLOCK = re.compile(r"(<!-- costs -->\n).*?(<!-- end -->)", re.DOTALL)
# Crates whose change a contributor may ask about, from the top down.
CHANGED = ("prove_sums", "tags", "reed_solomon", "word_tower", "field_base")
# Where pages quote the table: whose figure it is, and the text with the number.
QUOTES = [
    ("README.md", "gate", r"from nothing in (\d+) processor\nminutes; behind"),
    ("README.md", "field_base", r"proves them in (\d+) processor minutes \("),
    ("README.md", "tags", r"\((\d+) with `tags`"),
    ("README.md", "binary_field", r", (\d+) with `binary_field`"),
    ("README.md", "binary_field_c", r"proves and builds it in (\d+) processor minutes"),
    ("CONTRIBUTING.md", "gate", r"The gate takes (\d+) processor minutes"),
    ("docs/TUTORIAL.md", "field_base", r"proves it: (\d+) processor minutes for `field_base`"),
    ("docs/TUTORIAL.md", "binary_field", r"takes some (\d+) processor minutes\):"),
    ("docs/TUTORIAL.md", "binary_field_c", r"some (\d+) processor minutes at first"),
]


def minutes_of(name):
    """The processor minutes of a crate and all below it from nothing, or of the whole gate."""
    if name == "gate":
        return round(crates.gate_seconds() / 60)
    costs = crates.costs()
    return round(sum(costs.get(it, 0) for it in crates.chain([name])) / 60)


def table():
    """The table of costs."""
    names, seconds = crates.longest_chain()
    rows = [
        ("`rt ci`: every crate, test and program", minutes_of("gate")),
        ("the library for C, Python and Rust (`scripts/build-library`)", minutes_of("binary_field_c")),
        ("`binary_field` with all that it depends on (`scripts/vendor`)", minutes_of("binary_field")),
        ("`tags` with all that it depends on", minutes_of("tags")),
        (f"the longest chain of crates, which no number of cores shortens: {', '.join(f'`{it}`' for it in names)}", round(seconds / 60)),
    ]
    return "\n".join(["| From nothing | processor minutes |", "|---|---:|", *(f"| {text} | {minutes} |" for text, minutes in rows), ""])


def table_of_changes():
    """The table of what a change of a crate costs in the gate: that crate and all above it, with tests."""
    gate, rows = crates.gate(), []
    for name in CHANGED:
        above = [it for it in crates.dependencies() if name in crates.chain([it])]
        minutes = round(sum(sum(gate.get(it, ())) for it in above) / 60)
        others = f"that and the {len(above) - 1} above it" if len(above) > 1 else "that alone"
        rows.append(f"| a body or a contract of `{name}` | {others} | {minutes} |")
    alone = sorted(sum(seconds) for seconds in gate.values())
    first = f"| a comment of a crate | that alone, from nothing | {alone[0] / 60:.1f} to {alone[-1] / 60:.0f} |"
    return "\n".join(["| Change | Crates that are proved again | processor minutes |", "|---|---|---:|", first, *rows, ""])


def put(text, pattern, number):
    """A text with another number at the one place of the pattern."""
    found = re.search(pattern, text)
    if not found:
        sys.exit(f"make_costs: no page has {pattern}")
    return text[: found.start(1)] + str(number) + text[found.end(1) :]


def main():
    pages = {page: (files.TOP / page).read_text(encoding="utf-8") for page in [crates.GATE, *(page for page, _, _ in QUOTES)]}
    for page, rows in ((crates.GATE, table()), (CHANGES, table_of_changes())):
        pages[page] = BLOCK.sub(lambda found, rows=rows: found[1] + rows + found[2], pages[page])
    for page, name, pattern in QUOTES:
        pages[page] = put(pages[page], pattern, minutes_of(name))
    for page, text in pages.items():
        files.keep(page, text)


if __name__ == "__main__":
    main()
