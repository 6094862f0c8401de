"""Tests how scripts/build-library links two forms of the library: check_forms.py FOLDER, by stand-ins for both archives that FOLDER gets.

Each function of a stand-in returns a number of its own. So it is seen which function stands behind each name of the header under each
choice, where calls of the library itself would only tell that it computes the same. It needs gcc, and no proof.

check_forms.py best: prints the better form that this machine runs, as the system tells its features.
"""

import ctypes
import os
import pathlib
import subprocess
import sys
import threading

TOP = pathlib.Path(__file__).resolve().parent.parent
sys.path.insert(0, str(TOP / "scripts"))

import c_library  # noqa: E402
import forms  # noqa: E402

LOW, HIGH = forms.BOTH
VARIABLE = "BINARY_FIELD_PROCESSOR"
# A function with registers of 256 bits, by which an archive is known to be for x86-64-v3.
WIDE_CODE = """
typedef long long four __attribute__((vector_size(32)));
void doubles(four *words, long count) { for (long i = 0; i < count; i++) words[i] += words[i]; }
"""
FIRST = [f"bf_{name}" for name, *_ in [*c_library.PLAIN_FUNCTIONS, *c_library.functions()]]
SECOND = {f"bf_{name}": f"bf_{wide}" for name, wide in c_library.second_forms()}
# The number that each function of a form returns, by the name that it has in the proved crate.
NUMBERS = {form: {name: 1000 * at + i for i, name in enumerate([*FIRST, *SECOND.values()])} for at, form in enumerate(forms.BOTH, 1)}


def write_archive(folder, form):
    """A stand-in for the archive of a form. One function calls the system's library, whose names have to stay as they are."""
    source, made, archive = folder / f"{form}.c", folder / f"{form}.o", folder / f"{form}.a"
    functions = "".join(f"unsigned {name}(void) {{ return {number}; }}\n" for name, number in NUMBERS[form].items())
    uses = "#include <string.h>\nvoid copies(char *to, const char *from, size_t count) { memcpy(to, from, count); }\n"
    source.write_text(uses + functions + WIDE_CODE * (form == HIGH), encoding="ascii")
    subprocess.run(["gcc", "-O2", "-fPIC", *["-mavx2"] * (form == HIGH), "-c", source, "-o", made], check=True)
    archive.unlink(missing_ok=True)
    subprocess.run(["ar", "rcsD", archive, made], check=True)
    return archive


def build(folder, *words):
    """The shared library that build-library makes."""
    subprocess.run([TOP / "scripts/build-library", *words, folder], check=True, stdout=subprocess.DEVNULL)
    return folder / "lib/libbinary_field.so"


def wanted(form):
    """The number that each name gives where a form is chosen: of x86-64-v3 that of the second form where there is one."""
    return {name: NUMBERS[form][SECOND.get(name, name) if form == HIGH else name] for name in FIRST}


def loaded(path):
    """The library, and the name that it says of its form."""
    library = ctypes.CDLL(str(path))
    library.bf_processor.restype = ctypes.c_char_p
    return library, library.bf_processor().decode()


def say_choice(path):
    """In a process of its own: the name of the form, the functions that are not that form's, and who may do what in the page of addresses."""
    library, name = loaded(path)
    print(name, *[it for it, number in wanted(name).items() if library[it]() != number])
    symbols = subprocess.run(["nm", path], check=True, capture_output=True, text=True).stdout
    place = next(int(line.split()[0], 16) for line in symbols.splitlines() if line.endswith(" bf_page"))
    lines = pathlib.Path("/proc/self/maps").read_text(encoding="utf-8").splitlines()
    spans = [([int(it, 16) for it in line.split()[0].split("-")], line) for line in lines]
    base = next(first for (first, _), line in spans if line.endswith(str(path)))
    print(*[line.split()[1] for (first, last), line in spans if first <= base + place < last])


def say_threads(path):
    """In a process of its own: what eight threads find that load the library at the same time."""
    found, together = [], threading.Barrier(8)

    def load():
        together.wait()
        library, name = loaded(path)
        found.append((name, all(library[it]() == number for it, number in wanted(name).items())))

    threads = [threading.Thread(target=load) for _ in range(8)]
    for it in threads:
        it.start()
    for it in threads:
        it.join()
    print(len(found), *sorted({f"{name} {is_right}" for name, is_right in found}))


def asked(word, path, value):
    """What a process says that begins with the variable at a value, or without it."""
    environment = {name: it for name, it in os.environ.items() if name != VARIABLE} | ({VARIABLE: value} if value is not None else {})
    ran = subprocess.run([sys.executable, "-B", __file__, word, path], env=environment, check=True, capture_output=True, text=True)
    return ran.stdout.split("\n")[:-1]


def best():
    """The better form that this machine runs, as the system tells its features."""
    lines = pathlib.Path("/proc/cpuinfo").read_text(encoding="utf-8").splitlines()
    flags = next(line for line in lines if line.startswith("flags")).split()
    return HIGH if {"abm", "avx", "avx2", "bmi1", "bmi2", "f16c", "fma", "movbe", "xsave"} <= set(flags) else LOW


def expect(what, found, right):
    """Ends the program where something is not as it has to be."""
    if found != right:
        sys.exit(f"check_forms: {what}: {found}, and not {right}")
    print(f"check_forms: {what}: {right}")


def main():
    """Builds the stand-ins, and libraries of both forms and of each."""
    folder = pathlib.Path(sys.argv[1]).resolve()
    folder.mkdir(parents=True, exist_ok=True)
    archives = {form: write_archive(folder, form) for form in forms.BOTH}
    both = build(folder / "both", "--from", archives[HIGH], "--from", archives[LOW])
    for value in (None, "", LOW, HIGH, "x86-64-v4", "x86-64", "X86-64-V2", LOW + " "):
        right = LOW if value == LOW else best()
        expect(f"{len(FIRST)} functions with the variable at {value!r}", asked("choice", both, value), [right, "r--p"])
    expect("threads", asked("threads", both, None), [f"8 {best()} True"])
    for form in forms.BOTH:
        alone, name = loaded(build(folder / form, "--cpu", form, "--from", archives[form]))
        wrong = [it for it, number in wanted(form).items() if alone[it]() != number]
        expect("a library of one form", [name, *wrong], [form])


if __name__ == "__main__":
    if sys.argv[1] == "best":
        print(best())
    elif sys.argv[1] == "choice":
        say_choice(sys.argv[2])
    elif sys.argv[1] == "threads":
        say_threads(sys.argv[2])
    else:
        main()
