"""The crates, as crates.txt lists them, and what their proofs cost, as the table of the gate has it."""

import re

import files


# The page that has the table of the gate.
GATE = "docs/PROVING.md"
CRATE = re.compile(r"([a-z0-9_]+)[^:#]*:([^#]*)")


def entries(path=files.TOP / "crates.txt"):
    """Each crate of a crates.txt: what it depends on, its line, and the comments right above it."""
    found, comments = {}, []
    for line in path.read_text(encoding="utf-8").splitlines() if path.is_file() else []:
        crate = CRATE.match(line)
        if crate:
            found[crate[1]] = crate[2].split(), line, comments
        comments = [*comments, line] if line.startswith("#") else []
    return found


def layers():
    """Each layer by its heading, a comment with an empty line behind it, with its crates: their names and what they depend on."""
    found, lines = [], (files.TOP / "crates.txt").read_text(encoding="utf-8").splitlines()
    for line, behind in zip(lines, [*lines[1:], ""]):
        crate = CRATE.match(line)
        if crate:
            found[-1][1].append((crate[1], crate[2].split()))
        elif line.startswith("# ") and not behind:
            found.append((line[2:], []))
    return [(heading, crates) for heading, crates in found if crates]


def dependencies():
    """What each crate depends on, lowest first."""
    return {name: below for name, (below, _, _) in entries().items()}


def chain(names):
    """These crates and those of the repository that they depend on, lowest first."""
    known, wanted, ahead = dependencies(), set(), list(names)
    while ahead:
        name = ahead.pop()
        if name in known and name not in wanted:
            wanted.add(name)
            ahead += known[name]
    return [name for name in known if name in wanted]


def gate():
    """The processor seconds of each crate's proofs from nothing and of its tests, by the table."""
    page = (files.TOP / GATE).read_text(encoding="utf-8")
    rows = re.findall(r"^\| `(\w+)` \| ([\d,]*) ?\| ?([\d,]*) ?\|$", page, re.MULTILINE)
    return {name: [int(it.replace(",", "") or 0) for it in seconds] for name, *seconds in rows}


def gate_seconds():
    """The processor seconds of the whole gate by the line above the table, with what is told apart by no crate."""
    page = (files.TOP / GATE).read_text(encoding="utf-8")
    return int(re.search(r"^.* ([\d,]+) processor seconds", page.partition("<!-- gate -->")[2], re.MULTILINE)[1].replace(",", ""))


def costs():
    """The processor seconds of each crate's proofs from nothing."""
    return {name: proofs for name, (proofs, _) in gate().items()}


def longest_chain():
    """The crates of the longest chain of proofs, lowest first, and its seconds: those of its last crate are with tests."""
    seconds, ends = {}, {}
    for name, below in dependencies().items():
        proofs, tests = gate().get(name, (0, 0))
        before, names = max(((seconds[it], ends[it]) for it in below if it in seconds), default=(0, []))
        seconds[name], ends[name] = before + proofs, [*names, name]
        ends[name, "whole"] = before + proofs + tests
    last = max(seconds, key=lambda name: ends[name, "whole"])
    return ends[last], ends[last, "whole"]
