#!/usr/bin/env python3
"""Writes docs/BENCHMARKS.md and its pictures from bench/results/: plot.py [--check].

bench/results/head.md is how the page begins. Each bench/results/NAME.json is one question, with its table and its picture
docs/pictures/NAME.svg, in the order of `order`:

  title, unit, measured   the heading, the unit of all numbers, and what was run, with commits and versions
  columns, names, rows    the table; the first `names` columns name a row, the others are numbers, null where nothing was measured
  bars                    the columns that the picture draws, on a logarithmic scale
  ratio                   two lists of columns: the best of ours to the best of theirs; without it the table has no column Ratio
  better                  "more" where a larger number is better, as of throughput
  notes                   what is said below the table

It writes the picture of README.md, docs/pictures/three.svg, from products.json too. With --check nothing is written: the exit status
is 1 where a file is not what it would write. Nothing is needed beside Python.
"""
import html
import json
import math
import pathlib
import sys
import textwrap

TOP = pathlib.Path(__file__).resolve().parent.parent
RESULTS, PAGE, PICTURES = TOP / "bench/results", TOP / "docs/BENCHMARKS.md", TOP / "docs/pictures"
OURS, OTHERS, FIELD = ("#2f6f9f", "#7fb2d6"), ("#a0a0a0", "#c9a227", "#c05020"), "#ffffff"
# The rows of the picture of README.md, by what names them, and what is said of them.
THREE = [
    (("product", "BinaryField128"), "product in GF(2^128), the tower"),
    (("inverse", "BinaryField128"), "inverse in GF(2^128), the tower"),
    (("product", "Ghash128"), "product in the field of GHASH"),
]
LEFT, WIDE, BAR, WIDTH = 250, 330, 11, 140


def shown(value):
    """A number with up to three digits that count."""
    if value is None:
        return ""
    if value < 1:
        return f"{value:g}"
    return f"{value:,.{0 if value >= 100 else 1 if value >= 10 else 2}f}"


def best(table, row, columns):
    """The best of some columns of a row, or None."""
    found = [row[table["columns"].index(it)] for it in columns]
    found = [it for it in found if it is not None]
    return (max if table.get("better") == "more" else min)(found, default=None)


def ratio(table, row):
    """Our time to theirs, as a text."""
    ours, theirs = (best(table, row, it) for it in table["ratio"])
    if ours is None or theirs is None:
        return ""
    return f"{theirs / ours if table.get('better') == 'more' else ours / theirs:.2f}"


def written(text):
    """What names a row: the fields in code."""
    return f"`{text}`" if text.isidentifier() and any(it.isdigit() for it in text) else text


def lines_of_table(table):
    """The table in Markdown."""
    names, extra = table["names"], ["Ratio"] if "ratio" in table else []
    head = [written(it) for it in table["columns"]] + extra
    yield "| " + " | ".join(head) + " |"
    yield "|" + "---|" * names + "---:|" * (len(head) - names)
    for row in table["rows"]:
        cells = [written(it) for it in row[:names]] + [shown(it) for it in row[names:]]
        yield "| " + " | ".join(cells + ([ratio(table, row)] if extra else [])) + " |"


def picture(table):
    """The picture: a group of bars for each row, on a logarithmic scale."""
    bars = [table["columns"].index(it) for it in table["bars"]]
    ours = set(sum(table["ratio"][:1], [])) if "ratio" in table else set(table["bars"])
    mine, theirs, colours = iter(OURS), iter(OTHERS), {}
    for it in table["bars"]:
        colours[it] = next(mine if it in ours else theirs)
    rows = [row for row in table["rows"] if any(row[it] is not None for it in bars)]
    values = [row[it] for row in rows for it in bars if row[it] is not None]
    low, high = math.log10(min(values)) - 0.15, math.log10(max(values))
    out, top = [], 30
    text = lambda x, y, said, more="": f'<text x="{x:.0f}" y="{y}"{more}>{html.escape(said)}</text>'
    for row in rows:
        present = [it for it in bars if row[it] is not None]
        said = ", ".join(row[: table["names"]]).replace("`", "")
        out.append(text(LEFT - 8, top + BAR * len(present) / 2 + 4, said, ' text-anchor="end"'))
        for it in present:
            long = WIDE * (math.log10(row[it]) - low) / (high - low)
            out.append(f'<rect x="{LEFT}" y="{top}" width="{long:.1f}" height="{BAR - 1}" fill="{colours[table["columns"][it]]}"/>')
            out.append(text(LEFT + long + 4, top + BAR - 2, shown(row[it]), ' font-size="9"'))
            top += BAR
        top += 7
    place = 12
    legend = []
    for it in table["bars"]:
        legend += [f'<rect x="{place}" y="8" width="10" height="10" fill="{colours[it]}"/>', text(place + 14, 17, it)]
        place += 26 + 6 * len(it)
    size = f'width="660" height="{top}" viewBox="0 0 660 {top}"'
    begin = f'<svg xmlns="http://www.w3.org/2000/svg" {size} font-family="sans-serif" font-size="11">'
    return "\n".join([begin, f'<rect width="660" height="{top}" fill="{FIELD}"/>', *legend, *out, "</svg>", ""])


def three(table):
    """The picture of README.md: three rows in nanoseconds, ours and the Rust crate by the instruction."""
    ours, other = (table["columns"].index(it) for it in ("Ours, v2", "Rust crate, pclmulqdq"))
    rows = [next(row for row in table["rows"] if tuple(row[:2]) == names) for names, _ in THREE]
    most, left, wide = max(row[it] for row in rows for it in (ours, other)), 240, 340
    bar = lambda x, y, width, colour: f'<rect x="{x}" y="{y}" width="{width:.1f}" height="14" fill="{colour}"/>'
    text = lambda x, y, said, more="": f'<text x="{x:.0f}" y="{y}"{more}>{html.escape(said)}</text>'
    lines = [
        '<svg xmlns="http://www.w3.org/2000/svg" width="660" height="186" viewBox="0 0 660 186" font-family="sans-serif" font-size="13">',
        '<rect width="660" height="186" fill="#ffffff"/>',
        text(12, 20, "Nanoseconds an element, over slices of 1,024"),
    ]
    for at, (row, (_, said)) in enumerate(zip(rows, THREE)):
        top = 34 + 42 * at
        lines.append(text(left - 10, top + 20, said, ' text-anchor="end"'))
        for down, value, colour in zip((0, 16), (row[ours], row[other]), (OURS[0], OTHERS[0])):
            lines += [bar(left, top + down, wide * value / most, colour), text(left + wide * value / most + 6, top + down + 12, f"{value:.1f}")]
    lines += [
        bar(12, 162, 14, OURS[0]), text(32, 174, "Tiforwg, proved"), bar(150, 162, 14, OTHERS[0]),
        text(170, 174, "p3-binary-field 0.8.0 (Plonky3), by the carryless multiply instruction"), "</svg>", "",
    ]
    return "\n".join(lines)


def section(name, table):
    """The part of the page that answers one question."""
    yield f"## {table['title']}"
    yield ""
    yield from textwrap.wrap(f"{table['unit'][0].upper()}{table['unit'][1:]}. {'; '.join(table['measured'])}.", WIDTH)
    yield f"![{table['title']}: {', '.join(table['bars'])}](pictures/{name}.svg)"
    yield ""
    yield from lines_of_table(table)
    if table["notes"]:
        yield ""
        for it in table["notes"]:
            yield from textwrap.wrap(f"- {it}", WIDTH, subsequent_indent="  ")
    yield ""


def files():
    """Each file that is written, and its text."""
    tables = sorted(((it.stem, json.loads(it.read_text(encoding="utf-8"))) for it in RESULTS.glob("*.json")), key=lambda it: it[1]["order"])
    lines = (RESULTS / "head.md").read_text(encoding="utf-8").splitlines() + [""]
    for name, table in tables:
        lines += section(name, table)
        if "bars" in table:
            yield PICTURES / f"{name}.svg", picture(table)
    yield PAGE, "\n".join(lines).rstrip() + "\n"
    yield PICTURES / "three.svg", three(dict(tables)["products"])


def main():
    """Writes the files, or compares them."""
    if sys.argv[1:] in (["--help"], ["-h"]):
        print(__doc__.strip())
        return 0
    if sys.argv[1:] not in ([], ["--check"]):
        print("plot: plot.py [--check]", file=sys.stderr)
        return 2
    other = 0
    for place, text in files():
        if not place.exists() or place.read_text(encoding="utf-8") != text:
            print(f"plot: {place.relative_to(TOP)} is not what bench/results/ says" if sys.argv[1:] else f"plot: {place.relative_to(TOP)}")
            other = 1
            if not sys.argv[1:]:
                place.write_text(text, encoding="utf-8")
    return other if sys.argv[1:] else 0


if __name__ == "__main__":
    sys.exit(main())
