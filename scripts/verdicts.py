"""What the kit said last of each crate: the lines `logic=..` of what `rt ci`, `rt lib` and library-of-gate print."""

import re

import crates


def is_proved(verdict):
    """Whether such a line says that all of a crate was proved."""
    return verdict.startswith("logic=proved ")


def of_crates(text):
    """What was said of each crate, in a text that `rt ci` printed: its last line, or that it was kept of an earlier run."""
    found = {}
    for name, said in re.findall(r"^== (\w+)\n(.*?)^rt: \1 proved$", text, re.MULTILINE | re.DOTALL):
        found[name] = next((it for it in reversed(said.splitlines()) if it.startswith("logic=")), "no line")
    return found | dict(re.findall(r"^rt: (\w+) is (kept: .*)$", text, re.MULTILINE))


def of_archives(text):
    """What was said of each archive of the C library, by its name."""
    return dict(re.findall(r"^library-of-gate: (?:.*/)?([\w.-]+\.a): (logic=.*)$", text, re.MULTILINE))


def faults(text):
    """What stands against a release in a text that `rt ci` printed, if anything does."""
    ended, said = re.findall(r"^(\d+) passed, (\d+) failed$", text, re.MULTILINE), of_crates(text)
    if not ended or ended[-1][1] != "0":
        yield f"it does not end as `rt ci` does where all passed: {' passed, '.join(ended[-1]) + ' failed' if ended else 'no such line'}"
    if lacking := [it for it in crates.dependencies() if it not in said]:
        yield f"it says nothing of {', '.join(lacking)}"
    for name, verdict in [*said.items(), *of_archives(text).items()]:
        if not is_proved(verdict) and not verdict.startswith("kept: "):
            yield f"of {name} it says: {verdict}"
