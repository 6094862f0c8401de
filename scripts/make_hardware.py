#!/usr/bin/env python3
"""Writes what callers of the kernels in hardware/ are told, from the tables of c_library.py. With --check it compares instead.

    hardware/binary_field_hardware.h    the functions for C99 and C++
    hardware/cantor.h                   the first Cantor vectors of the tower
    rust/src/hardware_functions.rs      the functions as Rust declares foreign ones
"""

import textwrap

import c_library
import cantor
import files
from make_bindings import rust_comment, rust_function
from make_c_header import attributes, declared, own_names

WRITTEN = files.generated("make_hardware.py")
# What g128 and p64 have both.
OF_FIELD = (
    "multiply", "multiply_by", "add_scaled", "square", "inverse", "batch_inverse", "power", "dot_product", "evaluate", "multiply_in_place",
    "multiply_by_in_place", "square_in_place", "inverse_in_place", "power_in_place",
)
STAGES = ("butterfly_forward", "butterfly_inverse", "low_stages", "transform", "inverse_transform")
# What both hashes have of a message in pieces.
OF_HASH = ("init", "update", "pad", "final")
# Each group: its name, its bit, what it is, and its functions as the library names them.
GROUPS = (
    ("G128", 1, "the field of GHASH", [f"g128_{it}" for it in (*OF_FIELD, *STAGES)]),
    ("P64", 2, "GF(2)[x] modulo x^64 + x^4 + x^3 + x + 1", [f"p64_{it}" for it in OF_FIELD]),
    ("HASHES", 4, "GHASH and POLYVAL", [
        "tag_ghash", "tag_polyval", "tag_gcm_ghash", *(f"tag_{hash_name}_{it}" for hash_name in ("ghash", "polyval") for it in OF_HASH),
        "tag_gcm_ghash_final",
    ]),
    ("TOWERS", 8, "single products of the levels of 64 and 128 bits of the tower", [
        f"{level}_{it}" for level in ("t64", "t128") for it in ("multiply", "multiply_in_place")
    ]),
)
# Transforms of 2^40 values have twiddles of 40 vectors, and their steps begin with the next ones.
CANTOR_VECTORS = 44
STATUSES = (
    ("BF_NO_HARDWARE", 32, "The processor has no carryless multiply instruction."),
    ("BF_DIFFERENT", 33, "A kernel differs from a proved function."),
)


def functions():
    """Each group's heading with its functions: their names, parameters and texts."""
    rows = {name: (name, parameters, text) for name, parameters, text in c_library.functions()}
    for group, bit, about, names in GROUPS:
        yield group, bit, about, [rows[it] for it in names]


def about(name, parameters, text):
    """What a function does, after what it writes."""
    text = own_names().sub(r"bf_hw_\1", text)
    written = [it[1] for it in parameters if it[0] in ("out", "result")]
    return f"As bf_{name}. {written[0] + ': ' + text if len(written) == 1 else c_library.sentence(text, parameters).rstrip('.')}."


def comment(text):
    """A comment of C, its lines filled."""
    return "/* " + "\n * ".join(textwrap.wrap(text, 112, break_long_words=False)) + " */\n"


def declaration(name, parameters):
    """The declaration of a function. Lines are cut between parameters alone."""
    shown = ", ".join(it.replace(" ", "\0") for it in declared(parameters)) + ")\0" + "\0".join(attributes(parameters))
    inside = "\n    ".join(textwrap.wrap(shown, 112)).replace("\0", " ")
    return f"uint32_t bf_hw_{name}(\n    {inside};\n\n"


def header():
    """The header of the kernels."""
    out = [HEAD.format(written=WRITTEN)]
    out += [f"{comment(text)}#define {name} {value}u\n" for name, value, text in STATUSES]
    out.append("\n/* Groups of functions, of which a program asks for one or more. */\n")
    out += [f"#define BF_HW_{group} {bit}u /* {about_group} */\n" for group, bit, about_group, _ in GROUPS]
    out.append(f"#define BF_HW_ALL {sum(it[1] for it in GROUPS)}u\n\n{BEGIN}")
    for group, _, about_group, rows in functions():
        out.append(f"/* {'-' * 113} */\n{comment(f'BF_HW_{group}: {about_group}.')}\n")
        out += [comment(about(*row)) + declaration(row[0], row[1]) for row in rows]
    out.append("#ifdef __cplusplus\n}\n#endif\n\n#endif\n")
    return "".join(out)


HEAD = """\
/* Functions of libbinary_field by the processor's carryless multiply instruction, beside the proved ones.
 *
 * {written}
 *
 * These functions are not proved. Before the first call they are compared in this process with the proved ones on a
 * basis, which determines a bilinear map; that they are bilinear was read off their machine code when they were built.
 * Schedules (transforms, hashes of many blocks) are tested. Not complete are what has degree 3 (two stages of a
 * transform at once), that places of a slice do not depend on each other, and schedules: these are compared at drawn
 * operands.
 *
 * Each has the parameters, the statuses and the conditions of the function of binary_field.h whose name has no hw.
 * Until bf_hw_begin was called for its group, and where that did not give BF_OK, it is that proved function; and so it
 * is for lengths that do not fit. The functions of binary_field.h stay proved, whatever a program asks for here. A hash
 * in pieces has the same bytes by either, so that each goes on with what the other left.
 */
#ifndef BINARY_FIELD_HARDWARE_H
#define BINARY_FIELD_HARDWARE_H

#include <binary_field.h>

#ifdef __cplusplus
extern "C" {{
#endif

"""

BEGIN = """\
/* Compares the kernels of each of these groups, which takes 1 to 3 ms a group and is done once in a process, and has
 * the group's functions go by them from then on. BF_OK: all of the groups go by kernels. BF_NO_HARDWARE: the
 * processor has not the instructions. BF_DIFFERENT: of a group that was asked for a kernel differs, and the group stays
 * with the proved functions. Threads may call it at the same time. Other bits than those of groups are not read. */
uint32_t bf_hw_begin(uint32_t groups) BF_CHECKED;

/* The groups that go by kernels now. */
uint32_t bf_hw_groups(void);

"""


def cantor_vectors():
    """The Cantor vectors that have 64 bits and that transforms use, for C."""
    words = [f"0x{it:016x}" for it in cantor.vectors()[:CANTOR_VECTORS]]
    rows = "".join(f"    {', '.join(words[at : at + 4])},\n" for at in range(0, CANTOR_VECTORS, 4))
    text = f"/* The first Cantor vectors of the tower, of the level of 64 bits. {WRITTEN} */\n"
    return f"{text}#include <stdint.h>\n\nstatic const uint64_t cantor_of_tower[{CANTOR_VECTORS}] = {{\n{rows}}};\n"


def rust():
    """The functions as Rust declares foreign ones."""
    out = [f"//! The functions of libbinary_field by the processor's carryless multiply instruction. {WRITTEN}\n\n"]
    out += [f"{rust_comment(c_library.sentence(about_group), '')}pub const {group}: u32 = {bit};\n" for group, bit, about_group, _ in GROUPS]
    out.append(f"/// All groups.\npub const ALL: u32 = {sum(it[1] for it in GROUPS)};\n\nunsafe extern \"C\" {{\n")
    out.append("    /// Compares the kernels of groups, and has their functions go by them.\n    pub fn bf_hw_begin(groups: u32) -> u32;\n")
    out.append("    /// The groups that go by kernels now.\n    pub fn bf_hw_groups() -> u32;\n")
    for _, _, _, rows in functions():
        for name, parameters, text in rows:
            out.append(rust_comment(about(name, parameters, text)) + rust_function(f"bf_hw_{name}", parameters))
    return "".join([*out, "}\n"])


def main():
    files.keep("hardware/binary_field_hardware.h", header())
    files.keep("hardware/cantor.h", cantor_vectors())
    files.keep("rust/src/hardware_functions.rs", rust())


if __name__ == "__main__":
    main()
