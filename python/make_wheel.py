"""Makes the wheel of the Python package, with the shared library in it; `pip install` of this folder goes by it too (PEP 517).

    make_wheel.py LIBRARY.so FOLDER     writes the wheel into the folder
    pip install ./python                takes the library of the folder BINARY_FIELD_LIBRARY, or of build/lib, or says what makes one

It needs neither a network nor a compiler. A wheel is a zip archive (the Python Packaging User Guide, binary distribution format). Its name
tells the machine and the version of the C library that the library in it wants. The same files give the same bytes.
"""

import base64
import hashlib
import os
import pathlib
import re
import sys
import zipfile

HERE = pathlib.Path(__file__).resolve().parent
LIBRARY = "libbinary_field.so"
BUILT = HERE.parent / "build/lib"
# The machines of an ELF file, by their numbers, each with the oldest C library that a wheel's name may have.
MACHINES = {62: ("x86_64", (2, 5)), 183: ("aarch64", (2, 17))}
# A loader, the C library, and the library itself: what a library may name that is to run wherever there is that C library.
PROMISED = re.compile(rb"ld-linux[\w-]*\.so\.\d+|libc\.so\.6|libbinary_field\.so\.\d+")
# Relative relocations in short form came with this version, and are told by a name without a number.
SHORT_RELOCATIONS = (b"GLIBC_ABI_DT_RELR", (2, 36))


class UnsupportedOperation(Exception):
    """What the interface of backends wants to be raised for what is not done."""


def machine_of(path):
    """The machine of an ELF file, a library or a program, as x86_64."""
    head = path.read_bytes()[:20]
    number = int.from_bytes(head[18:], "little")
    if head[:4] != b"\x7fELF" or number not in MACHINES:
        sys.exit(f"make_wheel: {path} is neither library nor program for {' or '.join(it for it, _ in MACHINES.values())}")
    return MACHINES[number][0]


def libc_of(path):
    """The oldest version of the C library of GNU with which an ELF file may run, as (2, 17). All of the file is searched for the names of
    versions, so that none that it wants is left out."""
    data = path.read_bytes()
    versions = [tuple(map(int, it)) for it in re.findall(rb"\bGLIBC_(\d+)\.(\d+)", data)]
    versions += [SHORT_RELOCATIONS[1]] if SHORT_RELOCATIONS[0] in data else []
    return max([dict(MACHINES.values())[machine_of(path)], *versions])


def platform_of(library):
    """The platform of a wheel with the library, as `manylinux_2_17_x86_64`, where it names no shared library but the C library of GNU; else
    as `linux_x86_64`."""
    names = re.findall(rb"\b(?:ld|lib)[\w.+-]*\.so(?:\.\d+)+", library.read_bytes())
    if not all(PROMISED.fullmatch(it) for it in names):
        return f"linux_{machine_of(library)}"
    return "manylinux_{}_{}_{}".format(*libc_of(library), machine_of(library))


def project():
    """The lines of pyproject.toml with a name and a text, and what the package depends on."""
    text = (HERE / "pyproject.toml").read_text(encoding="utf-8")
    told = dict(re.findall(r'^([\w-]+) = "(.*)"$', text, re.MULTILINE))
    return told, re.findall(r'"([^"]+)"', re.search(r"^dependencies = \[(.*)\]$", text, re.MULTILINE)[1])


def metadata():
    """The package as a wheel describes it, by pyproject.toml."""
    told, needed = project()
    return "".join([
        "Metadata-Version: 2.1\n", f"Name: {told['name']}\n", f"Version: {told['version']}\n", f"Summary: {told['description']}\n",
        "License: MIT OR Apache-2.0\n", f"Requires-Python: {told['requires-python']}\n", *(f"Requires-Dist: {it}\n" for it in needed)])


def written(files, platform, folder):
    """Writes a wheel of these files for the platform, with its metadata and the hash of each file, and returns its path."""
    told, _ = project()
    name, tag = f"{told['name']}-{told['version']}", f"py3-none-{platform}"
    info = f"{name}.dist-info"
    files |= {f"{info}/{it}": (HERE.parent / it).read_bytes() for it in ("LICENSE-MIT", "LICENSE-APACHE")}
    files[f"{info}/METADATA"] = metadata().encode()
    files[f"{info}/WHEEL"] = f"Wheel-Version: 1.0\nGenerator: make_wheel.py\nRoot-Is-Purelib: false\nTag: {tag}\n".encode()
    hashes = [(it, base64.urlsafe_b64encode(hashlib.sha256(data).digest()).rstrip(b"=").decode(), len(data)) for it, data in files.items()]
    files[f"{info}/RECORD"] = "".join([*(f"{it},sha256={digest},{size}\n" for it, digest, size in hashes), f"{info}/RECORD,,\n"]).encode()
    path = pathlib.Path(folder) / f"{name}-{tag}.whl"
    with zipfile.ZipFile(path, "w", zipfile.ZIP_DEFLATED) as archive:
        for it, data in files.items():
            archive.writestr(zipfile.ZipInfo(it, (2026, 1, 1, 0, 0, 0)), data, zipfile.ZIP_DEFLATED)
    return path


def make(library, folder):
    """Writes the wheel with the library, and returns its path."""
    sources = sorted(it for it in (HERE / "binary_field").glob("*") if it.suffix in (".py", ".typed"))
    files = {f"binary_field/{it.name}": it.read_bytes() for it in sources}
    files[f"binary_field/{LIBRARY}"] = library.read_bytes()
    return written(files, platform_of(library), folder)


def found_library():
    """The shared library that was built; where there is none, the process ends with a sentence that says which command makes it. A folder
    that is named by a relative path is below the one that pip was started in, or below the repository."""
    named = os.environ.get("BINARY_FIELD_LIBRARY")
    folders = [pathlib.Path(it) / named for it in (os.environ.get("PWD", "."), HERE.parent)] if named else [BUILT]
    for folder in folders:
        if (folder / LIBRARY).is_file():
            return folder / LIBRARY
    why = f"there is no {BUILT / LIBRARY}, and BINARY_FIELD_LIBRARY is not set"
    if named:
        why = f"BINARY_FIELD_LIBRARY is {named}, where there is no {LIBRARY}"
    sys.exit(f"binary_field: {why}. `scripts/build-library build` makes build/lib/{LIBRARY}; a wheel of a release has it in it")


def get_requires_for_build_wheel(config_settings=None):
    """What has to be there to make the wheel: nothing but the library."""
    found_library()
    return []


def build_wheel(wheel_directory, config_settings=None, metadata_directory=None):
    """Makes the wheel for `pip install` and its like, and returns its name."""
    return make(found_library(), wheel_directory).name


def build_editable(wheel_directory, config_settings=None, metadata_directory=None):
    """Makes a wheel that leads to this folder, for `pip install -e`. The library is then found when the package is loaded."""
    return written({"binary_field.pth": f"{HERE}\n".encode()}, "any", wheel_directory).name


def build_sdist(sdist_directory, config_settings=None):
    """Refuses: the package without the library, which no compiler makes of it, would install nowhere."""
    raise UnsupportedOperation("a wheel is made of the package, and no archive of its sources")


if __name__ == "__main__":
    print(f"make_wheel: {make(*map(pathlib.Path, sys.argv[1:]))}")
