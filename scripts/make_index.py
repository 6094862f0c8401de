#!/usr/bin/env python3
"""Writes the index of the scripts, scripts/README.md, and that of the tests, tests/README.md, from the first sentence of
each file. With --check it compares instead.

A command is a file that may be executed; what has no such right is a module or a table that commands read. The first
sentence is that of the text of a module of Python, of the comment at the head of a script, or of its USAGE.
"""

import ast
import itertools
import os
import re

import files

# The commands by what they are for: a heading, and what their names match.
GROUPS = [
    ("Tests of what is built", r"test-.*|run-tutorial|try-mutations"),
    ("Checks that take seconds", r"check-.*|spec-words|repeats.py|without_ensures.py"),
    ("Writers of files that the repository holds; `--check` compares", r"make[_-].*|write-help|draw-crates"),
    ("Commands", r".*"),
]
HEADS = {
    "scripts": """# Scripts

Each command answers `--help`, and does nothing then. A writer is called by the name that the files which it writes have
in their first lines. Programs are run by `./binfield`, `./tag`, `./shards`, `./secret` and `./prove_sums` at the top,
which are links to run-program.""",
    "tests": """# Tests

What callers of the library and users of the programs do. The commands test-.. of scripts/ and .ci/run run these; tests
of Rattle stand in the crates.""",
}


def first_text(path):
    """What a file says of itself, in one line."""
    text = path.read_text(encoding="utf-8")
    if text.startswith(("#!/usr/bin/env python3", '"""')):
        return ast.get_docstring(ast.parse(text)) or ""
    if usage := re.search(r"^USAGE='[\w-]+: (.*?)\n\n", text, re.MULTILINE | re.DOTALL):
        return usage[1]
    if path.suffix == ".c" or path.suffix == ".h":
        return re.sub(r"^ ?\*? ?", "", re.search(r"/\*(.*?)\*/", text, re.DOTALL)[1].strip(), flags=re.MULTILINE)
    lines = [line for line in text.splitlines() if not line.startswith(("#!", "# shellcheck"))]
    head = itertools.takewhile(lambda line: line.startswith("#") and not line.startswith("# --"), lines)
    return "\n".join(line.removeprefix("#").strip() for line in head)


def sentence(path):
    """The first sentence of a file."""
    text = " ".join(first_text(path).split("\n\n")[0].split())
    found = re.match(r".*?(?<!\b[A-Z])[.:](?= [A-Z`]|$)", text)  # a capital alone is an initial
    sentence = (found[0] if found else text).removesuffix(":").removesuffix(".").replace("|", "\\|")
    return sentence[0].upper() + sentence[1:]


def table(paths):
    """The rows of some files."""
    return ["| File | What it is |", "|---|---|", *(f"| {path.name} | {sentence(path)} |" for path in paths), ""]


def page(folder):
    """The index of a folder."""
    paths = sorted(it for it in (files.TOP / folder).iterdir() if it.is_file() and it.name != "README.md")
    commands = [it for it in paths if os.access(it, os.X_OK)]
    lines = [HEADS[folder], "", f"<!-- {files.generated('make_index.py')} -->", ""]
    grouped = {heading: [] for heading, _ in reversed(GROUPS)}
    for it in commands:
        grouped[next(heading for heading, names in GROUPS if re.fullmatch(names, it.name))].append(it)
    for heading, found in grouped.items():
        lines += [f"## {heading}", "", *table(found)] if found else []
    texts = [it for it in paths if it not in commands and it.suffix in (".py", ".sh", ".c", ".txt") and first_text(it)]
    return "\n".join([*lines, "## Modules, programs and tables that these read", "", *table(texts)])


def main():
    for folder in HEADS:
        files.keep(f"{folder}/README.md", page(folder))


if __name__ == "__main__":
    main()
