#!/usr/bin/env python3
"""Writes docs/pictures/repairs.svg: how many words of codes that correct errors are read as they were sent, by how many symbols a channel
changes.

make_repairs.py [--check]: nothing is measured. A word is read as it was sent exactly where no more symbols of it are wrong than the code
corrects, and each symbol is wrong with the same probability, whatever the others are; so a curve is a sum of binomials.
"""
import html
import math

import files

# What is drawn: a name, a colour, the symbols of a word, and how many of them may be wrong.
CURVES = [
    ("CCSDS (255, 223), 16 wrong", "#2f6f9f", 255, 16), ("the same, 32 lost at known places", "#7fb2d6", 255, 32),
    ("DVB (204, 188), 8 wrong", "#c9a227", 204, 8), ("QR (26, 16), 5 wrong", "#c05020", 26, 5), ("255 bytes without a code", "#a0a0a0", 255, 0),
]
# The rates at the left and at the right, and where the field of the picture lies.
LEAST, MOST = 1e-4, 0.5
LEFT, TOP, WIDE, HIGH = 56, 48, 584, 220
STEPS = 146


def read_as_sent(symbols, most, rate):
    """The part of all words of which at most so many symbols are wrong."""
    return sum(math.comb(symbols, wrong) * rate**wrong * (1 - rate) ** (symbols - wrong) for wrong in range(most + 1))


def across(rate):
    """Where a rate stands, on a logarithmic scale."""
    return LEFT + WIDE * math.log(rate / LEAST) / math.log(MOST / LEAST)


def text(x, y, said, anchor="middle"):
    return f'<text x="{x:.0f}" y="{y:.0f}" text-anchor="{anchor}">{html.escape(said)}</text>'


def axes():
    """Lines and numbers of both axes, and what they are."""
    for rate, said in ((1e-4, "0.01%"), (1e-3, "0.1%"), (1e-2, "1%"), (0.1, "10%"), (0.5, "50%")):
        yield f'<path d="M{across(rate):.0f} {TOP}V{TOP + HIGH}" stroke="#dddddd"/>'
        yield text(across(rate), TOP + HIGH + 16, said)
    for part in (0, 25, 50, 75, 100):
        y = TOP + HIGH * (100 - part) / 100
        yield f'<path d="M{LEFT} {y:.0f}H{LEFT + WIDE}" stroke="#dddddd"/>'
        yield text(LEFT - 6, y + 4, f"{part}%", "end")
    yield text(LEFT + WIDE / 2, TOP + HIGH + 34, "symbols that the channel changes")


def curve(colour, symbols, most):
    """One curve."""
    rates = [LEAST * (MOST / LEAST) ** (step / STEPS) for step in range(STEPS + 1)]
    points = " ".join(f"{across(it):.1f},{TOP + HIGH * (1 - read_as_sent(symbols, most, it)):.1f}" for it in rates)
    return f'<polyline points="{points}" fill="none" stroke="{colour}" stroke-width="2"/>'


def picture():
    """The picture."""
    high = TOP + HIGH + 44
    lines = [
        f'<svg xmlns="http://www.w3.org/2000/svg" width="660" height="{high}" viewBox="0 0 660 {high}" font-family="sans-serif" font-size="11">',
        f"<!-- {files.generated('make_repairs.py')} -->", f'<rect width="660" height="{high}" fill="#ffffff"/>', *axes(),
    ]
    for at, (name, colour, symbols, most) in enumerate(CURVES):
        x, y = 12 + 216 * (at % 3), 10 + 16 * (at // 3)
        lines += [f'<rect x="{x}" y="{y}" width="10" height="10" fill="{colour}"/>', text(x + 14, y + 9, name, "start"), curve(colour, symbols, most)]
    return "\n".join([*lines, "</svg>", ""])


if __name__ == "__main__":
    files.keep("docs/pictures/repairs.svg", picture())
