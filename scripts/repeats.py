#!/usr/bin/env python3
"""Lists the pairs of places in crates/ that repeat: six or more lines that stand twice, with the same text or in one shape.

repeats.py [--most N]: the N largest pairs, or 20, as `FILE:LINE-LINE ~ FILE:LINE-LINE (LINES lines, same|shape)`, behind a line that counts
all of them.

Every .rt and .antt file is read but those that scripts write. Blank lines, comments, imports and lines with no word count for nothing. Lines
have one shape where they are the same with `x` for each name, `0` for each number and `s` for each string, and a place is `same` where its
text is. Six lines in one shape are a repeat where they have 24 words and signs and four shapes among them; rows of a table, variants and
parameters have fewer. A pair is as long as it can be, and its sides start six lines apart or more.

The command `duplicates`, shown a copy of these files with endings that it knows, looks at the same lines in the same shapes, and counts
otherwise. Its pair is a pair of files, however many places they share, as in what scripts/check-house holds; this lists each pair of places too.
It leaves out six lines that stand more than eight times; this leaves out none. It wants two statements among six lines where this wants four
shapes: signatures with other parameters and types with other fields are counted here alone, lists of assignments of one shape there alone. It
reads `ghost use` and the lines of a long `use` as code. It lets a pair go on behind a line that one side has more; here another pair begins.
"""
import collections
import itertools
import re
import sys

import files

LINES, WORDS, SHAPES = 6, 24, 4
WORD = re.compile(r'"(?:[^"\\]|\\.)*"|\w+|\S')
IMPORT = re.compile(r"(pub(\([a-z]+\))? )?(ghost )?(use|mod)\b")
Line = collections.namedtuple("Line", "path number text shape words")
Pair = collections.namedtuple("Pair", "first second length")


def counted(path):
    """The lines of a file that count: their numbers and their texts with single spaces."""
    comment, imported = ("//" if path.endswith(".rt") else "--"), False
    for number, line in enumerate(files.lines_of(path), 1):
        text = " ".join(line.split())
        if imported or IMPORT.match(text):
            # An import of Rattle may go over lines, up to its semicolon; one of antt is a line.
            imported = path.endswith(".rt") and not text.endswith(";") and "mod " not in text
        elif re.search(r"\w", text) and not text.startswith(comment):
            yield number, text


def shape_of(text):
    """The shape of a line, and how many words and signs it has."""
    words = WORD.findall(text)
    kind = lambda it: "x" if it[0].isalpha() or it[0] == "_" else "s" if it[0] == '"' else "0" if it[0].isdigit() else it
    return " ".join(map(kind, words)), len(words)


def read():
    """The lines that count, of all files."""
    shapes, lines = {}, []
    for path in files.by_hand(r"crates/.*\.(rt|antt)"):
        for number, text in counted(path):
            if text not in shapes:
                shapes[text] = shape_of(text)
            lines.append(Line(path, number, text, *shapes[text]))
    return lines


def is_logic(window):
    """Whether lines of one shape say enough to be a repeat."""
    return sum(it.words for it in window) >= WORDS and len({it.shape for it in window}) >= SHAPES


def starts(lines):
    """Where six lines of one file start that stand again elsewhere, by groups: those of one text, and those of one shape."""
    texts, shapes = collections.defaultdict(list), collections.defaultdict(list)
    for at in range(len(lines) - LINES + 1):
        window = lines[at : at + LINES]
        if window[0].path == window[-1].path:
            texts[tuple(it.text for it in window)].append(at)
            if is_logic(window):
                shapes[tuple(it.shape for it in window)].append(at)
    return [it for it in (*texts.values(), *shapes.values()) if len(it) > 1]


def pairs():
    """The lines that count, and the pairs of places that repeat, the largest first, by where they start in these."""
    lines, apart = read(), collections.defaultdict(set)
    for group in starts(lines):
        for first, second in itertools.combinations(group, 2):
            if lines[first].path != lines[second].path or second - first >= LINES:
                apart[second - first].add(first)
    found = []
    for distance, firsts in apart.items():
        # Starts that follow each other, as far apart from their seconds, are one pair: they have one difference to their ranks.
        for _, run in itertools.groupby(enumerate(sorted(firsts)), lambda it: it[1] - it[0]):
            run = [first for _, first in run]
            found.append(Pair(run[0], run[0] + distance, len(run) + LINES - 1))
    return lines, sorted(found, key=lambda it: (-it.length, it))


def place(lines, start, length):
    """A place as it is printed."""
    return f"{lines[start].path}:{lines[start].number}-{lines[start + length - 1].number}"


def rows():
    """Each pair as it is printed, the largest first."""
    lines, found = pairs()
    for first, second, length in found:
        same = all(lines[first + it].text == lines[second + it].text for it in range(length))
        yield f"{place(lines, first, length)} ~ {place(lines, second, length)} ({length} lines, {'same' if same else 'shape'})"


def files_of(found):
    """The pairs of files that have these rows."""
    return sorted({" ~ ".join(re.findall(r"(\S+):\d+-", it)) for it in found})


def main():
    most = int(sys.argv[2]) if sys.argv[1:2] == ["--most"] else 20
    found = list(rows())
    apart = files_of(found)
    same = sum(it.endswith("same)") for it in found)
    print(f"repeats.py: {len(found)} pairs of places in {len(apart)} pairs of files, {same} of them the same")
    print("\n".join(found[:most]))


if __name__ == "__main__":
    main()
