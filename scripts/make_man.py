#!/usr/bin/env python3
"""Writes the manual pages docs/man/PROGRAM.1 from the texts that the programs print for --help: the constant USAGE of a crate's
src/, or scripts/help/PROGRAM.txt. With --check it compares instead, and tells a program that says another version than VERSION.

A text begins with `usage:` and the forms of the command, then has paragraphs, and may end with a line `Example: ..`. One of a program
with commands, which scripts/write-help writes, has a line `$ PROGRAM .. --help` before each help.

What a page says besides stands in scripts/help/PROGRAM-lines.txt: headings in capitals, paragraphs, terms with their meaning indented
below, and what is indented alone, commands with what they print, which scripts/run-tutorial runs.
"""

import re
import sys
import textwrap

import crates
import fields
import files

USAGE = re.compile(r'^const USAGE: &str = "((?:[^"\\]|\\.)*)";', re.MULTILINE | re.DOTALL)
ESCAPES = {"n": "\n", "t": "\t", '"': '"', "\\": "\\"}


def unescaped(text):
    """The text of a literal of Rust."""
    text = re.sub(r"\\\n\s*", "", text)
    return re.sub(r"\\(.)", lambda found: ESCAPES[found[1]], text)


def texts():
    """Each program with its text and what crates.txt says of it."""
    known = (files.TOP / "crates.txt").read_text(encoding="utf-8")
    for name in crates.dependencies():
        source, beside = files.CRATES / name / "src/main.rt", files.TOP / f"scripts/help/{name}.txt"
        if not source.is_file():
            continue
        code = "\n".join(it.read_text(encoding="utf-8") for it in sorted(source.parent.glob("*.rt")))
        if said := re.search(rf'"{name} (\d+\.\d+\.\d+)|VERSION: &str = "(\d+\.\d+\.\d+)', code):
            if (version := said[1] or said[2]) != fields.VERSION_TEXT:
                sys.exit(f"{name} says version {version}, and the file VERSION {fields.VERSION_TEXT}")
        found = USAGE.search(code)
        about = re.search(rf"^# (.*)\n{name}:", known, re.MULTILINE)[1].removeprefix("The program: ").removeprefix("The program that ")
        if found or beside.is_file():
            yield name, unescaped(found[1]) if found else beside.read_text(encoding="utf-8"), about


def roff(text):
    """A text as roff reads it."""
    text = text.replace("\\", "\\e").replace("-", "\\-")
    return re.sub(r"^([.'])", r"\\&\1", text, flags=re.MULTILINE)


def heads(name, about):
    """What the page of a program begins with."""
    return [
        f'.\\" {files.generated("make_man.py")}',
        f'.TH {name.upper()} 1 "" "Tiforwg {fields.VERSION_TEXT}"',
        ".SH NAME",
        roff(f"{name} - {about.rstrip('.')}"),
        ".SH SYNOPSIS",
        ".nf",
    ]


def paragraphs(text):
    """The paragraphs of a text."""
    return "\n.PP\n".join(roff(it.strip()) for it in text.strip().split("\n\n"))


def page_of_commands(name, text, about):
    """The manual page of a program with commands: each has a section with its help."""
    helps = re.findall(rf"^\$ {name} ?(\w*) --help\n(.*?)(?=^\$|\Z)", text, re.MULTILINE | re.DOTALL)
    parts = heads(name, about)
    for command, said in helps:
        if command:
            forms = re.search(r"^Usage: (.*?)\n\n", said, re.MULTILINE | re.DOTALL)[1]
            parts += [roff(it.strip()) for it in forms.splitlines()]
    # What stands behind the options of the program.
    parts += [".fi", ".SH DESCRIPTION", paragraphs(re.search(r"^Options:\n.*?\n\n(.*)", helps[0][1], re.MULTILINE | re.DOTALL)[1]), ".SH COMMANDS"]
    for command, said in helps:
        if command:
            parts += [f".SS {command}", ".nf", roff(said.strip()), ".fi"]
    return "\n".join(parts) + "\n"


def sections(name):
    """The sections that the page of a program has besides its help."""
    path = files.TOP / f"scripts/help/{name}-lines.txt"
    for part in path.read_text(encoding="utf-8").strip().split("\n\n") if path.is_file() else []:
        first, _, rest = part.partition("\n")
        if part.isupper():
            yield f".SH {part}"
        elif part.startswith("    "):
            yield f".PP\n.nf\n{roff(textwrap.dedent(part))}\n.fi"
        elif rest.startswith("    "):
            yield f".TP\n{roff(first)}\n{roff(textwrap.dedent(rest))}"
        else:
            yield f".PP\n{roff(part)}"


def page(name, text, about):
    """The manual page of a program."""
    if f"\n$ {name} --help\n" in text:
        return page_of_commands(name, text, about)
    head, _, rest = text.strip().partition("\n\n")
    rest, _, example = rest.partition("Example: ")
    # Forms stand behind the word, or below it with what each does.
    forms = head.removeprefix("usage:")
    forms = textwrap.dedent(forms.strip("\n")) if forms.startswith("\n") else "\n".join(it.strip() for it in forms.splitlines())
    parts = [*heads(name, about), roff(forms), ".fi"]
    if rest.strip():
        parts += [".SH DESCRIPTION", paragraphs(rest)]
    parts += sections(name)
    if example:
        parts += [".SH EXAMPLE", ".nf", roff(example.strip()), ".fi"]
    return "\n".join(parts) + "\n"


def main():
    made = {f"{name}.1" for name, _, _ in texts()}
    for name, text, about in texts():
        files.keep(f"docs/man/{name}.1", page(name, text, about))
    # A page of a program that is no more.
    for it in sorted((files.TOP / "docs/man").glob("*.1")):
        if it.name not in made:
            if files.is_check():
                sys.exit(f"{it} is the page of no program")
            it.unlink()


if __name__ == "__main__":
    main()
