"""The words that files of specs/ define."""

import functools
import re

HEAD = re.compile(r"( *)(?:(?:unfoldable|abbrev) )*pub (?!mod |use |module )(?:(?:unfoldable|abbrev|record|data) )*([^\W\d][\w-]*)")


@functools.cache
def words_of(path):
    """Each public word that a file defines, with its line: heads of definitions, records, data types and public lemmas, and no fields of records."""
    found, blocks = [], []
    with open(path, encoding="utf-8") as lines:
        for at, line in enumerate(lines, 1):
            text = line.strip()
            if not text or text.startswith("--"):
                continue
            indent = len(line) - len(line.lstrip(" "))
            while blocks and blocks[-1][0] >= indent:
                blocks.pop()
            head = HEAD.match(line)
            # A definition stands at the margin or in a `module` that stands there.
            if head and all(is_module for _, is_module in blocks):
                found.append((head[2], at))
            blocks.append((indent, text.startswith("module ")))
    return found
