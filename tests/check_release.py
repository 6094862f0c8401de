"""Looks into the files of a release: check_release.py FOLDER GATE, the folder and what `rt ci` printed.

That the sums are those of the files; that archives have the files that they should, root's and of one time; that a wheel's name is that
of the library in it, by readelf; that what the release says of proofs is what the gate said; and that the list of what it is made of
names the crates of the kit that crates.txt names, with the versions that the kit's pages have.
"""

import hashlib
import json
import os
import pathlib
import re
import subprocess
import sys
import tarfile
import tempfile
import zipfile

TOP = pathlib.Path(__file__).resolve().parent.parent
sys.path.insert(0, str(TOP / "scripts"))
import build_module
import crates
import fields

VERSION = fields.VERSION_TEXT
LIBRARY = "lib/libbinary_field"
WANTED = {
    "install", "include/binary_field.h", f"{LIBRARY}.a", f"{LIBRARY}.so", f"{LIBRARY}.so.0", "lib/pkgconfig/binary_field.pc",
    *(f"lib/cmake/binary_field/binary_fieldConfig{it}.cmake" for it in ("", "Version")),
    *(f"share/doc/binary_field/{it}" for it in ("README.md", "CHANGELOG.md", "PROVED.txt", "LICENSE-MIT", "LICENSE-APACHE", "example.c")),
}
MACHINES = {"x86_64": "X86-64", "aarch64": "AArch64"}
# The oldest C library that a release tells of.
OLDEST = {"x86_64": (2, 5), "aarch64": (2, 17)}


def said(*command):
    """What a command prints."""
    return subprocess.run(command, cwd=TOP, capture_output=True, text=True, check=True).stdout


def same(found, wanted, what):
    """Ends the script where two things are not the same."""
    if found != wanted:
        sys.exit(f"check_release: {what}: {found}, and not {wanted}")


def check_sums(folder):
    """SHA256SUMS has every other file of the folder, in order, with its sum."""
    names = sorted(it.name for it in folder.iterdir() if it.name != "SHA256SUMS")
    lines = [f"{hashlib.sha256((folder / it).read_bytes()).hexdigest()}  {it}" for it in names]
    same((folder / "SHA256SUMS").read_text().splitlines(), lines, "SHA256SUMS")


def members(path):
    """The files of an archive below its one folder, whose owner, time and modes are those of a release."""
    folder, found = "package" if path.suffix == ".tgz" else re.sub(r"\.tar\.gz$|\.crate$", "", path.name), {}
    made = int(os.environ.get("SOURCE_DATE_EPOCH") or said("git", "log", "-1", "--format=%ct"))
    with tarfile.open(path) as archive:
        entries = archive.getmembers()
        same([it.name for it in entries], sorted({it.name for it in entries}), f"the order of {path.name}")
        same({(it.uid, it.gid, it.uname, it.gname) for it in entries}, {(0, 0, "", "")}, f"owners in {path.name}")
        same({it.mtime for it in entries}, {made}, f"times in {path.name}")
        for it in entries:
            same(it.name.split("/")[0], folder, f"a folder of {path.name}")
            name = it.name.removeprefix(f"{folder}/")
            is_run = name == "install" or name.startswith("bin/") or name.endswith(".so")
            same(it.mode, 0o777 if it.issym() else 0o755 if is_run else 0o644, f"the mode of {it.name}")
            found[name] = it.linkname if it.issym() else archive.extractfile(it).read()
    return found


def machine_by_readelf(data):
    """The machine of a library or program, what shared libraries it names, and the newest version of the C library that it wants."""
    with tempfile.NamedTemporaryFile() as file:
        file.write(data)
        file.flush()
        head, needed, versions = (said("readelf", "-W", it, file.name) for it in ("-h", "-d", "-V"))
    machine = re.search(r"Machine:.*?(X86-64|AArch64)", head)[1]
    newest = max((tuple(map(int, it)) for it in re.findall(r"Name: GLIBC_(\d+)\.(\d+)", versions)), default=(2, 0))
    return machine, set(re.findall(r"\(NEEDED\).*\[(.*)\]", needed)), newest


def check_archive(path):
    """The archive of a machine: all that it should have, for that machine, and the programs that have a page of the manual, or none."""
    machine = re.search(r"-(\w+)-linux\.tar\.gz$", path.name)[1]
    found = members(path)
    same(WANTED - set(found), set(), f"what {path.name} lacks")
    programs = {it.removeprefix("bin/") for it in found if it.startswith("bin/")}
    pages = {it.stem for it in (TOP / "docs/man").glob("*.1")}
    same(programs in (set(), pages), True, f"the programs of {path.name}, {sorted(programs)}")
    same({it for it in found if it.startswith("share/man/")}, {f"share/man/man1/{it}.1" for it in programs}, f"pages in {path.name}")
    built = [f"bin/{it}" for it in sorted(programs)]
    for name in (f"{LIBRARY}.so", *built):
        same(machine_by_readelf(found[name])[0], MACHINES[machine], f"the machine of {name} in {path.name}")
    same(found[f"{LIBRARY}.so.0"], "libbinary_field.so", f"the link in {path.name}")
    page = found["share/doc/binary_field/README.md"].decode()
    newest = [machine_by_readelf(found[it])[2] for it in (f"{LIBRARY}.so", *built)]
    same(re.findall(r"@|<!--", page), [], f"places to be filled in the page of {path.name}")
    same("This archive has none" in page, not built, f"whether the page of {path.name} tells of no programs")
    wanted = [max(OLDEST[machine], *it) for it in ([newest[0]], newest)][: 2 if built else 1]
    same([tuple(map(int, it)) for it in re.findall(r"from version (\d+)\.(\d+)", page)], wanted, f"C libraries in the page of {path.name}")
    named = {name.split("/")[4] for name in found if name.startswith("share/doc/binary_field/kit/")}
    same(named <= of_kit(["binary_field_c", *programs]), True, f"licences in {path.name}, {named}")
    for name, data in found.items():
        if isinstance(data, bytes) and not name.startswith("share/"):
            same(re.search(rb"/tmp/|/root/|" + re.escape(bytes(TOP)), data), None, f"a folder of this machine in {name}")
    return found


def check_wheel(path, archives):
    """The wheel: its name is that of the machine and of the C library that its library wants, and that library is the archive's."""
    oldest, machine = re.fullmatch(rf"binary_field-{VERSION}-py3-none-manylinux_(\d+_\d+)_(x86_64|aarch64)\.whl", path.name).groups()
    with zipfile.ZipFile(path) as archive:
        names = archive.namelist()
        library = archive.read("binary_field/libbinary_field.so")
        same(f"manylinux_{oldest}_{machine}" in archive.read(f"binary_field-{VERSION}.dist-info/WHEEL").decode(), True, "the tag")
    of_package = {f"binary_field/{it.name}" for it in (TOP / "python/binary_field").iterdir() if it.suffix in (".py", ".typed")}
    same(of_package - set(names), set(), f"what {path.name} lacks")
    same(library == archives[machine][f"{LIBRARY}.so"], True, f"whether {path.name} has the library of the archive")
    found, needed, newest = machine_by_readelf(library)
    same(found, MACHINES[machine], f"the machine of {path.name}")
    same(needed - {"libc.so.6", "ld-linux-x86-64.so.2", "ld-linux-aarch64.so.1"}, set(), f"the libraries that {path.name} wants")
    same(tuple(map(int, oldest.split("_"))), max(newest, OLDEST[machine]), f"the C library of {path.name}")


def check_crate(path):
    """The Rust crate: the files that git holds, and the licences."""
    tracked = {it.removeprefix("rust/") for it in said("git", "ls-files", "rust").split() if not it.endswith(".gitignore")}
    same(set(members(path)), tracked | {"LICENSE-MIT", "LICENSE-APACHE"}, path.name)


def check_package(path):
    """The JavaScript package: its files are those that package.json names, the licences and the page, its version is the release's, and its
    module has no imports and the library's functions."""
    found = members(path)
    of_package = {it.name for it in (TOP / "javascript").iterdir() if it.suffix in (".mjs", ".ts")}
    same(set(found), of_package | {"package.json", "README.md", "LICENSE-MIT", "LICENSE-APACHE", "binary_field.wasm"}, path.name)
    same(json.loads(found["package.json"])["version"], VERSION, f"the version of {path.name}")
    build_module.require_library(found["binary_field.wasm"])
    for name, data in found.items():
        same(re.search(rb"/tmp/|/root/|" + re.escape(bytes(TOP)), data), None, f"a folder of this machine in {name}")


def check_proved(text, gate):
    """PROVED.txt: the commit, the kit, and of every crate of crates.txt the line that the gate has."""
    heads = [f"commit {said('git', 'rev-parse', 'HEAD').strip()}", f"kit {said('rt', 'version').strip()}"]
    same([it in text for it in heads], [True, True], "commit and kit")
    for name in crates.dependencies():
        line = re.search(rf"^{name}: (.*)$", text, re.MULTILINE)
        same(bool(line) and (line[1] in gate.splitlines() or f"rt: {name} is {line[1]}" in gate.splitlines()), True, f"the line of {name}")
    ended = [re.findall(r"^\d+ passed, \d+ failed$", it, re.MULTILINE) for it in (text, gate)]
    same(ended[0], ended[1][-1:], "the last line")


def of_kit(names):
    """The kit's crates that these crates, and those below them, name."""
    known = crates.dependencies()
    return {below for name in crates.chain(names) for below in known[name]} - set(known) - {"staticlib"}


def check_list(text):
    """The list of what the release is made of: its form, the kit's crates, and their versions by the kit's pages."""
    packages = {}
    for block in text.split("\n\n")[1:]:
        tags = dict(re.findall(r"^(\w+): (.*)$", block, re.MULTILINE))
        lacking = {"PackageName", "SPDXID", "PackageVersion", "PackageDownloadLocation", "FilesAnalyzed"} - set(tags)
        same(lacking, set(), f"what a package lacks: {block}")
        packages[tags["SPDXID"]] = tags["PackageVersion"]
    relations = re.findall(r"^Relationship: (\S+) (\w+) (\S+)$", text, re.MULTILINE)
    same({end for a, _, b in relations for end in (a, b)} - {"SPDXRef-DOCUMENT"}, set(packages), "the packages that something is said of")
    same("@" in text, False, "a place to be filled in the list")
    programs = [it.stem for it in (TOP / "docs/man").glob("*.1")]
    for part, names in (("library", ["binary_field_c"]), ("programs", programs)):
        listed = {b.removeprefix("SPDXRef-kit-") for a, kind, b in relations if (a, kind) == (f"SPDXRef-{part}", "DEPENDS_ON")}
        same(listed, of_kit(names), f"crates of the kit below the {part}")
    kit = pathlib.Path(said("rt", "doc").strip()).parent / "rattle"
    for name, version in ((it.removeprefix("SPDXRef-kit-"), version) for it, version in packages.items() if it.startswith("SPDXRef-kit-")):
        page = kit / name / "README.md"
        told = re.search(rf"\b{name}(?:_builder)?`? (\d+\.\d+\.\d+)", page.read_text()) if page.is_file() else None
        same(version, told[1] if told else "NOASSERTION", f"the version of the kit's {name}")


def main():
    folder, gate = map(pathlib.Path, sys.argv[1:])
    check_sums(folder)
    archives = {re.search(r"-(\w+)-linux", it.name)[1]: check_archive(it) for it in folder.glob("*.tar.gz")}
    for it in folder.glob("*.whl"):
        check_wheel(it, archives)
    same(len(list(folder.glob("*.whl"))), len(archives), "how many wheels there are")
    check_crate(folder / f"binary-field-{VERSION}.crate")
    for it in folder.glob("*.tgz"):
        check_package(it)
    check_proved((folder / "PROVED.txt").read_text(), gate.read_text())
    check_list((folder / f"binary_field-{VERSION}.spdx").read_text())
    print(f"check_release: {len(archives)} archives ({', '.join(sorted(archives))}), as they have to be")


if __name__ == "__main__":
    main()
