#!/usr/bin/env python3
"""Lists the functions that have a result or a `&mut` parameter, and whose contract says nothing of either.

without_ensures.py [-v]: prints how many functions of each crate have no `ensures`, and of how many; with -v it lists them as `FILE:LINE: NAME`.

Functions of .rt files that scripts write count too. Tests do not, that is the crates of the layer of tests in crates.txt, files tests.rt or
below tests/, what stands behind `#[cfg(test)]`, and functions with `#[test]`; nor does `main`. A method in an impl of a trait has the trait's
contract: it counts where the trait is of this repository and its method has no `ensures`, and not where the trait is of the kit.
"""
import collections
import re
import sys

import crates
import files

# What stands in a source and is no code, but for line ends: comments, strings and characters. A clause may have names that end in `'`.
ASIDE = re.compile(r"""//[^\n]*|(?<!\w)b?r(#*)".*?"\1|"(?:[^"\\]|\\.)*"|(?<![\w'])(?:b?)'(?:[^'\\\n]|\\[^\n']+)'""", re.DOTALL)
CLAUSE = re.compile(r"\b(?:ghost|requires|ensures)\*?\s*[^\s{}:;()]*:?\s*$")
TEST = re.compile(r"#\[cfg\(test\)\]\s*(?:pub(?:\(\w+\))? )?mod (\w+)\s*;")
ITEM = re.compile(r"\b(?:fn\s+(\w+)|(trait)\s+(\w+)|(impl)\b|(mod)\s+\w+\s*(?=\{))|[{};]|#\[(?:cfg\()?(test)\)?\]")
BRACKETS = {"(": ")", "[": "]", "{": "}"}
Function = collections.namedtuple("Function", "path line name trait declared speaks said")


def code_of(path):
    """The text of a source with nothing but line ends in place of comments, strings and characters."""
    return ASIDE.sub(lambda it: "\n" * it[0].count("\n"), "\n".join(files.lines_of(path)))


def behind(text, at):
    """The place behind the bracket that closes the one at a place."""
    open_, depth = text[at], 0
    for found in re.compile(re.escape(open_) + "|" + re.escape(BRACKETS[open_])).finditer(text, at):
        depth += 1 if found[0] == open_ else -1
        if not depth:
            return found.end()
    return len(text)


def behind_generics(text, at):
    """The place behind the type parameters at a place, if there are any."""
    if text[at : at + 1] != "<":
        return at
    depth = 0
    for found in re.compile(r"(?<![-=])>|<").finditer(text, at):
        depth += 1 if found[0] == "<" else -1
        if not depth:
            return found.end()
    return len(text)


def head_of(text, at):
    """The head of an item from a place on, with its clauses, and where its body or its semicolon stands."""
    start = at
    while found := re.compile(r"[({\[;]").search(text, at):
        if found[0] == ";" or found[0] == "{" and not CLAUSE.search(text, start, found.start()):
            return text[start : found.start()], found.start()
        at = behind(text, found.start())
    return text[start:], len(text)


def speaks(head):
    """Whether a function has a result or a `&mut` parameter, by what stands behind its name."""
    at = behind_generics(head, 0)
    end = behind(head, at)
    parameters, rest = head[at:end], re.split(r"\b(?:where|ghost|requires|ensures)\b", head[end:])[0]
    result = rest.partition("->")[2].strip()
    return result not in ("", "()", "!") or bool(re.search(r"&\s*(?:'\w+\s+)?mut\b", parameters))


def trait_of(head):
    """The trait of an impl by what stands behind `impl`, or nothing."""
    found = re.match(r"\s*(?:[\w:]*::)?(\w+).*?\sfor\s+(?!<)", head[behind_generics(head, 0) :], re.DOTALL)
    return found and found[1]


def scope_of(found, head, is_test):
    """What stands in the braces of an item: tests, the methods of a trait or of an impl, or others."""
    if is_test:
        return "test", None
    return ("trait", found[3]) if found[2] else ("impl", trait_of(head)) if found[4] else ("item", None)


def functions_of(path):
    """The functions of a source that are no tests."""
    text, at, scopes, is_test = code_of(path), 0, [], False
    while found := ITEM.search(text, at):
        at, name = found.end(), found[1]
        if found[6]:
            is_test = True
        elif found[0] == "{":
            scopes.append(None)
        elif found[0] == "}":
            scopes.pop()
        elif found[0] == ";":
            is_test = False
        else:
            head, at = head_of(text, at)
            kind, trait = next((it for it in reversed(scopes) if it), ("item", None))
            is_test = is_test or kind == "test"
            if name and name != "main" and not is_test:
                line = text.count("\n", 0, found.start()) + 1
                yield Function(path, line, name, trait, kind == "trait", speaks(head.strip()), bool(re.search(r"\bensures\b", head)))
            if text[at : at + 1] == "{":
                at += 1
                scopes.append(scope_of(found, head, is_test))
            is_test = False


def sources():
    """The sources that are no tests."""
    paths = [it for it in files.tracked() if re.fullmatch(r"crates/\w+/src/.*\.rt", it)]
    tests = [f"{re.sub('/(lib|main)$', '', it[:-3])}/{name}" for it in paths for name in TEST.findall("\n".join(files.lines_of(it)))]
    tests += [f"crates/{name}" for heading, found in crates.layers() if heading.startswith("tests") for name, _ in found]
    begins = tuple(end for it in tests for end in (f"{it}.rt", f"{it}/"))
    return [it for it in paths if not it.startswith(begins) and not re.search(r"/tests(/|\.rt$)", it)]


def without():
    """The functions whose contract says nothing of what they give or change, and how many functions there are by crates."""
    every = [function for path in sources() for function in functions_of(path)]
    declared = {(it.trait, it.name): it.said for it in every if it.declared}
    traits = {trait for trait, _ in declared}
    found = []
    for it in every:
        inherits = it.trait and not it.declared and (it.trait not in traits or declared.get((it.trait, it.name), True))
        if it.speaks and not it.said and not inherits:
            found.append(it)
    return found, collections.Counter(it.path.split("/")[1] for it in every)


def main():
    found, every = without()
    for crate, count in sorted(collections.Counter(it.path.split("/")[1] for it in found).items()):
        print(f"{count:4} of {every[crate]:4} {crate}")
    if sys.argv[1:] == ["-v"]:
        print("\n".join(f"{it.path}:{it.line}: {it.name}" for it in found))
    print(f"without_ensures.py: {len(found)} of {sum(every.values())} functions")


if __name__ == "__main__":
    main()
