"""The forms of the C library: one for each processor for which the proved crate is compiled.

A library for x86-64 has two, x86-64-v2 and x86-64-v3, and calls the better one that runs on the machine at hand (scripts/processors.c). Of the
two for WebAssembly one has vectors of 128 bits and one has none.
"""

import files

CRATE = "binary_field_c"
WASM = ["--target", "wasm64-unknown-unknown"]
# What the kit's compiler is told for each.
FLAGS = {
    "x86-64-v2": ["--cpu", "x86-64-v2"],
    "x86-64-v3": ["--cpu", "x86-64-v3"],
    "aarch64": ["--target", "aarch64-unknown-linux-gnu"],
    "wasm64": WASM,
    "wasm64-no-simd": WASM,
}
# The two that one library has.
BOTH = ["x86-64-v2", "x86-64-v3"]
# What clang is told besides, where the kit does not: the processor that it names for WebAssembly has no vectors; and on Intel's processors from
# Skylake to Cascade Lake jumps that cross a multiple of 32 bytes are slow, so that loops of 16 bytes took 1.24 times as long where a linker
# put them 16 bytes behind one (Intel, Mitigations for Jump Conditional Code Erratum, 2019).
WITHIN_BOUNDS = ["-mbranches-within-32B-boundaries"]
MORE_FOR_CLANG = {"x86-64-v2": WITHIN_BOUNDS, "x86-64-v3": WITHIN_BOUNDS, "wasm64": ["-msimd128"]}


def is_module(form):
    """Whether the archive of a form is linked into a module of WebAssembly."""
    return FLAGS[form] == WASM


def archive(form):
    """Where the archive of a form stands once it is proved and compiled."""
    return files.CRATES / CRATE / "out" / f"{form}.a"


def prefix(form):
    """What stands before the symbols of a form in a library of two."""
    return form.replace("-", "_") + "_"
