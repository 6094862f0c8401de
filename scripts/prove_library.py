"""Proves and compiles the crate of the C library, and says how far it is.

prove_library.py LOG FORM ..: runs `rt lib` (RT names another command) in crates/binary_field_c for each of these forms, and leaves their
archives where forms.py says. What `rt` says goes into the file LOG. Each crate is told when it is proved, with those that are left; a crate that
takes longer is told with the functions that are checked. For a further form only the crate itself is checked once more. The exit status is
that of `rt`.
"""

import os
import pathlib
import re
import resource
import shutil
import subprocess
import sys
import textwrap
import tempfile
import time

import compile_library
import crates
import files
import forms

# How long nothing is said of a crate in work, in seconds.
SILENCE = 30


def say(text):
    """Says a text, in lines of a terminal's width."""
    for line in textwrap.wrap(text, 112):
        print(f"build-library: {line}", flush=True)


def minutes(seconds):
    """So many seconds, as people say it."""
    return f"{round(seconds / 60)} minutes" if seconds >= 90 else f"{round(seconds)} seconds"


class Progress:
    """What is proved, by the lines that `rt` writes: each of a crate's functions has one when the crate is done."""

    def __init__(self, names, costs):
        self.left = {name: costs.get(name, 60) for name in names}
        self.count = len(names)
        self.at = time.monotonic()

    def read(self, line):
        """Takes one line."""
        proved = re.match(r"(?:fn|struct|enum|impl|trait|const|static) (\w+)::.*: proved$", line)
        checked = re.match(r"so far: (\d+ of \d+) functions checked", line)
        if proved and proved[1] in self.left:
            self.done(proved[1])
        elif checked and time.monotonic() - self.at > SILENCE:
            self.at = time.monotonic()
            say(f"{checked[1]} functions are checked of the crate at work; left: {', '.join(self.left)}")

    def done(self, name):
        """A crate is proved; those below it were so before, if they were taken as they were."""
        below = [it for it in crates.chain([name]) if it in self.left]
        for it in below:
            del self.left[it]
        self.at = time.monotonic()
        rest = f"left: {', '.join(self.left)}, some {minutes(sum(self.left.values()))} of one processor" if self.left else "all of them"
        say(f"{self.count - len(self.left)} of {self.count} crates are proved, {name} now; {rest}")


def prove(form, progress, kept):
    """Runs `rt lib` for one form, and keeps its archive; the exit status of `rt`."""
    folder = files.CRATES / forms.CRATE
    ran = subprocess.Popen([os.environ.get("RT", "rt"), "lib", *forms.FLAGS[form]], cwd=folder, stdout=subprocess.PIPE,
                           stderr=subprocess.STDOUT, stdin=subprocess.DEVNULL, text=True, errors="replace")
    for line in ran.stdout:
        kept.write(line)
        kept.flush()
        progress.read(line)
    status = ran.wait()
    if status == 0:
        shutil.copyfile(folder / "out" / f"lib{forms.CRATE}.a", forms.archive(form))
        say(f"compiled for {form}")
    return status if status >= 0 else 1


def compile_over(form):
    """Compiles a form of which clang is told more than `rt lib` tells it, over the libraries that `rt lib` has just proved; the exit status."""
    with tempfile.TemporaryDirectory() as checked:
        kit = compile_library.kit_folder()
        is_built = compile_library.build(kit, form, forms.archive(form), pathlib.Path(checked), lambda text: print(text, flush=True))
    if is_built:
        say(f"compiled for {form}")
    return 0 if is_built else 1


def prove_archive(form, progress, kept):
    """The same, and compiled once more where clang is told more."""
    status = prove(form, progress, kept)
    return status or (compile_over(form) if form in forms.MORE_FOR_CLANG else 0)


def prove_module(form, progress, kept):
    """The same for a module, which is linked too."""
    plain = next(it for it in forms.FLAGS if forms.is_module(it) and it not in forms.MORE_FOR_CLANG)
    status = prove(plain, progress, kept)
    if status == 0 and form != plain:
        return compile_over(form)
    return status or (0 if compile_library.link(compile_library.kit_folder(), forms.archive(form), say) else 1)


def main():
    """Proves for all forms that are named."""
    log, *wanted = sys.argv[1:]
    names, costs = crates.chain([forms.CRATE]), crates.costs()
    say(f"{len(names)} crates are proved and compiled for {' and '.join(wanted)}: {', '.join(names)}. From nothing that takes some "
        f"{minutes(sum(costs.get(it, 60) for it in names))} of one processor, and longer on a busy machine; what was proved before is taken as it is. The "
        f"files of the proofs take some 3 GB of crates/*/out. All that is said goes to {log}")
    began, progress, status = time.monotonic(), Progress(names, costs), 0
    with open(log, "w", encoding="utf-8") as kept:
        for form in wanted:
            status = status or (prove_module if forms.is_module(form) else prove_archive)(form, progress, kept)
            progress = Progress([forms.CRATE], costs)
    spent = resource.getrusage(resource.RUSAGE_CHILDREN)
    if status == 0:
        say(f"proved and built in {minutes(time.monotonic() - began)}, {round(spent.ru_utime + spent.ru_stime)} s of processors")
    return status


if __name__ == "__main__":
    sys.exit(main())
