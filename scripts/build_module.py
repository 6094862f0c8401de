"""Lays out the module of WebAssembly, the JavaScript package and the page.

build_module.py [--no-simd] [--from MODULE] FOLDER

    FOLDER/lib/binary_field.wasm    the module, with its SHA-256 beside it
    FOLDER/javascript/              the package, with the module in it, as `npm pack` takes it
    FOLDER/web/                     the page, with all that it loads, for any server of files

Without --from the library is proved and compiled (scripts/prove_library.py). build-library calls this for its target
wasm64.
"""

import argparse
import hashlib
import pathlib
import shutil
import subprocess
import sys
import tempfile

import c_library
import files
import forms
import theorems_page

JAVASCRIPT, WEB = files.TOP / "javascript", files.TOP / "web"
# Sections of a module that are read here.
IMPORTS, EXPORTS = 2, 7
# What a module exports besides functions, and the functions that only a library of two forms calls.
MORE = {"memory", "__heap_base"}


class ModuleError(Exception):
    """Why a file is not the library's module."""


class Reader:
    """Bytes of a module that are read one behind the other."""

    def __init__(self, content):
        self.content, self.at = content, 0

    def take(self, count):
        """So many bytes."""
        if self.at + count > len(self.content):
            raise ModuleError("it ends early")
        self.at += count
        return self.content[self.at - count : self.at]

    def number(self):
        """A number of LEB128, without a sign."""
        value, shift = 0, 0
        while True:
            byte = self.take(1)[0]
            value |= (byte & 127) << shift
            shift += 7
            if byte < 128:
                return value

    def name(self):
        """A name."""
        return self.take(self.number()).decode("utf-8")


def sections(module):
    """The content of each section of a module, by its number."""
    head = b"\0asm\1\0\0\0"
    if not module.startswith(head):
        raise ModuleError("it is no module of WebAssembly")
    reader = Reader(module)
    reader.take(len(head))
    while reader.at < len(module):
        kind = reader.take(1)[0]
        yield kind, reader.take(reader.number())


def exports(module):
    """The names that a module exports; one that imports anything is refused."""
    found = set()
    for kind, content in sections(module):
        reader = Reader(content)
        if kind == IMPORTS and reader.number():
            raise ModuleError("it has imports, and the library has none")
        if kind == EXPORTS:
            for _ in range(reader.number()):
                found.add(reader.name())
                reader.take(1)
                reader.number()
    return found


def require_library(module):
    """Ends where a module is not the library's: its functions are those of the header, and the second forms of some."""
    called = {f"bf_{it}" for it, _, _ in (*c_library.functions(), *c_library.PLAIN_FUNCTIONS)}
    wide = {f"bf_{second}" for _, second in c_library.second_forms()}
    found = exports(module)
    if lacking := sorted((called | MORE) - found):
        raise ModuleError(f"it lacks {', '.join(lacking[:5])}")
    if others := sorted(found - called - wide - MORE):
        raise ModuleError(f"it has {', '.join(others[:5])}, which the header has not")


def proved(form):
    """The module of a form, which is proved and compiled here."""
    with tempfile.NamedTemporaryFile(prefix="build-library-", suffix=".log", delete=False) as log:
        command = [sys.executable, "-B", files.TOP / "scripts/prove_library.py", log.name, form]
        if subprocess.run(command, check=False).returncode:
            sys.exit(f"build-library: {forms.CRATE} was not built; all that rt said is in {log.name}")
    return forms.archive(form).with_suffix(".wasm")


def copy(source, target, names):
    """Copies files of a folder, in the place of what was there."""
    target.mkdir(parents=True, exist_ok=True)
    for pattern in names:
        for path in sorted(source.glob(pattern)):
            shutil.copyfile(path, target / path.name)


def lay_out(module, folder):
    """Writes the folders."""
    (folder / "lib").mkdir(parents=True, exist_ok=True)
    (folder / "lib/binary_field.wasm").write_bytes(module)
    digest = hashlib.sha256(module).hexdigest()
    (folder / "lib/binary_field.wasm.sha256").write_text(f"{digest}  binary_field.wasm\n", encoding="ascii")
    copy(JAVASCRIPT, folder / "javascript", ["*.mjs", "*.d.ts", "package.json", "README.md"])
    copy(files.TOP, folder / "javascript", ["LICENSE-*"])
    copy(WEB, folder / "web", ["*.html", "*.css", "*.mjs", "*.svg"])
    (folder / "web/theorems.html").write_text(theorems_page.page(), encoding="utf-8")
    copy(JAVASCRIPT, folder / "web/binary_field", ["*.mjs"])
    for place in ("javascript", "web/binary_field"):
        (folder / place / "binary_field.wasm").write_bytes(module)
    return digest


def main():
    """Builds for the words of the command line."""
    words = argparse.ArgumentParser(prog="build-library --target wasm64")
    words.add_argument("--no-simd", action="store_true")
    words.add_argument("--from", dest="source", type=pathlib.Path)
    words.add_argument("folder", type=pathlib.Path)
    said = words.parse_args()
    form = "wasm64-no-simd" if said.no_simd else "wasm64"
    source = said.source or proved(form)
    try:
        module = source.read_bytes()
        require_library(module)
        digest = lay_out(module, said.folder)
    except OSError as error:
        sys.exit(f"build-library: {error.filename}: {error.strerror}")
    except (ModuleError, UnicodeDecodeError) as error:
        sys.exit(f"build-library: {source} is not the library's module: {error}")
    print(f"build-library: for {form} in {said.folder}: binary_field.wasm of {len(module)} bytes, SHA-256 {digest}")


if __name__ == "__main__":
    main()
