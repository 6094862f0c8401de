"""The folders of the repository, and files that scripts write or compare.

A script that makes files calls `keep` for each: it writes the file, or with the argument `--check` ends the script where the file is
another. A generated file says in its first lines that it is one, and which command writes it: `generated` gives that sentence.

A script that imports this answers --help by its own first text, and does nothing else.
"""

import functools
import pathlib
import re
import subprocess
import sys

TOP = pathlib.Path(__file__).resolve().parent.parent
CRATES = TOP / "crates"


def is_check():
    """Whether files are compared, and not written."""
    return "--check" in sys.argv[1:]


def generated(command):
    """What the head of a file says that `scripts/COMMAND` writes."""
    return f"Written by scripts/{command}; do not edit."


@functools.cache
def tracked():
    """The files that git holds, by their paths from the top."""
    listed = subprocess.run(["git", "ls-files", "-z"], cwd=TOP, capture_output=True, check=True).stdout.decode()
    return [it for it in listed.split("\0") if it and (TOP / it).is_file()]


@functools.cache
def lines_of(path):
    """The lines of a file, by its path from the top."""
    return (TOP / path).read_text(encoding="utf-8", errors="replace").splitlines()


def by_hand(pattern):
    """The files that git holds whose paths match, but for those that scripts write: one of their first ten lines says so."""
    found = [it for it in tracked() if re.fullmatch(pattern, it)]
    return [it for it in found if "do not edit" not in " ".join(lines_of(it)[:10]).lower()]


def keep(path, content):
    """Writes a text or bytes to a file of the repository, or compares them with what is there."""
    path = TOP / path
    data = content.encode() if isinstance(content, str) else content
    if is_check():
        if not path.is_file() or path.read_bytes() != data:
            sys.exit(f"{path} is not what this script writes")
        return
    path.parent.mkdir(parents=True, exist_ok=True)
    path.write_bytes(data)


def answer_help():
    """Prints what the script that runs says of itself, where it is asked for that alone, and ends it. A link to a script, as ./binfield,
    answers by itself."""
    said = sys.modules["__main__"].__doc__
    if sys.argv[1:] in (["--help"], ["-h"]) and said and not pathlib.Path(sys.argv[0]).is_symlink():
        sys.stdout.write(said.strip() + "\n")
        sys.exit()


answer_help()
