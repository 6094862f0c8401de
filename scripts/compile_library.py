"""Compiles the crate of the C library over libraries that are there, by the kit's `rattle build`, and links modules of
WebAssembly; and says how any crate is checked over such libraries."""

import os
import pathlib
import shlex
import subprocess

import crates
import files
import forms

# What the last line of a proof says that took nothing from earlier checks, but for the kit's own logic, the libraries
# below, and the folder of this run.
TRUSTED = {"logic-built=trusted", "libraries-built=trusted", "statements=trusted", "incremental=trusted"}


def rlib(name):
    """Where a crate's library stands."""
    return files.CRATES / name / "out/rlib" / f"{name}.rlib"


def kit_folder():
    """The folder of the kit: the page that `rt doc` names stands in it."""
    named = os.environ.get("RT", "rt")
    page = subprocess.run([named, "doc"], capture_output=True, text=True, check=True).stdout.strip()
    return pathlib.Path(page).resolve().parent


def below(name=forms.CRATE):
    """The crates below the library's, or below another."""
    return [it for it in crates.chain([name]) if it != name]


def is_of_gate(name):
    """Whether the library is one that `rt ci` left: it writes no stamp beside it, as `rt lib` and `rt check` do."""
    return (rlib(name) / "format").is_file() and not (files.CRATES / name / "out/rlib/stamp").exists()


def over_libraries(kit, name):
    """What `rattle` is told to take the libraries that are there for what a crate depends on."""
    known, words = crates.dependencies(), []
    for it in ["std", *[it for it in known[name] if it not in known and it != "staticlib"]]:
        words += ["--extern", f"{it}={kit}/rlibs/{it}.rlib"]
    for it in known[name]:
        words += ["--extern", f"{it}={rlib(it)}"] if it in known else []
    for it in below(name):
        words += ["-L", f"dependency={rlib(it).parent}"]
    words += ["-L", f"dependency={kit}/rlibs", "--antt-project", f"{kit}/rattle/logic/antt-project.json"]
    return [*words, "--logic-built", f"{kit}/logic_built"]


def words_of(kit):
    """What `rattle build` is told, whatever the form."""
    words = ["--crate-name", forms.CRATE, "src/lib.rt", "--crate-type", "staticlib", "--links", f"{forms.CRATE}="]
    return [*words, *over_libraries(kit, forms.CRATE), "--backend", "llvm", "--jobs", "1"]


def toolchain(kit, form, folder):
    """The kit's folder of compilers; for a form of which clang is told more, one in this folder whose clang is the kit's
    with these words."""
    own = kit / "toolchain"
    if form not in forms.MORE_FOR_CLANG:
        return own
    made = folder / f"toolchain-{form}"
    (made / "bin").mkdir(parents=True, exist_ok=True)
    for it in [*(own / "bin").iterdir(), own / "lib"]:
        link = made / it.relative_to(own)
        if it.name != "clang" and not link.is_symlink():
            link.symlink_to(it)
    clang = made / "bin/clang"
    named, more = shlex.quote(str(own / "bin/clang")), shlex.join(forms.MORE_FOR_CLANG[form])
    clang.write_text(f'#!/bin/sh\nexec {named} "$@" {more}\n', encoding="utf-8")
    clang.chmod(0o755)
    return made


def run(words, **more):
    """Runs a command, of which all that it prints is kept."""
    return subprocess.run(list(map(str, words)), stdin=subprocess.DEVNULL, stdout=subprocess.PIPE,
                          stderr=subprocess.STDOUT, text=True, errors="replace", check=False, **more)


def build(kit, form, archive, checked, says):
    """Checks the crate and compiles it into the archive, and links the module; whether it is proved over the libraries
    that are there. What was checked for one form is kept in the folder `checked` for the next."""
    words = [*words_of(kit), "--toolchain", toolchain(kit, form, checked), "--incremental", checked / "incremental"]
    ran = run([kit / "bin/rattle", "build", *words, *forms.FLAGS[form], "-o", archive], cwd=files.CRATES / forms.CRATE)
    verdict = next((it for it in reversed(ran.stdout.splitlines()) if it.startswith("logic=")), "")
    said = {it for it in verdict.split() if it.endswith("=trusted")}
    if ran.returncode or not verdict.startswith("logic=proved ") or said - TRUSTED:
        says(ran.stdout[-3000:])
        says(f"{forms.CRATE} is not proved and built over these libraries: {verdict or 'no verdict'}")
        return False
    says(f"{archive}: {verdict}")
    return not forms.is_module(form) or link(kit, archive, says)


def link(kit, archive, says):
    """Links an archive for WebAssembly into a module, which stands beside it; whether that went well."""
    module = archive.with_suffix(".wasm")
    ran = run([kit / "bin/rattle-link", *forms.WASM, "--toolchain", kit / "toolchain", "-o", module, archive])
    if ran.returncode:
        says(f"{ran.stdout[-3000:]}{module} was not linked")
    return ran.returncode == 0
