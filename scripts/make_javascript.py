#!/usr/bin/env python3
"""Writes what JavaScript calls the C library by, as a module of WebAssembly, from the tables of fields.py and
c_library.py. With --check it compares instead.

    javascript/tables.mjs       the functions with their parameters, the statuses and the fields
    javascript/fields.d.ts      the type of each field, and the names of the functions
    javascript/package.json     the version alone
"""

import json
import re

import c_library
import cantor
import fields
import files

WRITTEN = files.generated("make_javascript.py")
# The array of JavaScript that has the words of an element, by the word of the table.
ARRAYS = {"u8": "Uint8Array", "u16": "Uint16Array", "u32": "Uint32Array"}
ARRAYS |= dict.fromkeys(("u64", "u128", "u192"), "BigUint64Array")


def field_row(field):
    """What a field is called, how many bits an element has, its word, and what the field is."""
    row = {"name": field.name, "type": field.type_name, "bits": field.bits, "word": field.word, "about": field.about}
    if field.partner:
        row["partner"] = field.partner.name
    if field.is_transformed or field.name == "g128":
        row["isTransformed"] = True
    return row


def tables():
    """The tables of the functions, of the statuses and of the fields."""
    functions = "".join(
        f"  {name}: {json.dumps([list(it) for it in parameters])},\n" for name, parameters, _ in c_library.functions()
    )
    statuses = "".join(f"  {value}: {json.dumps([name, text])},\n" for name, value, text in c_library.STATUSES)
    rows = "".join(f"  {json.dumps(field_row(it))},\n" for it in fields.FIELDS)
    return f"""\
// The functions of the library, the statuses that they return, and the fields. {WRITTEN}

// The version that this package belongs to, as bf_version returns it and as people write it.
export const VERSION = {fields.VERSION_NUMBER};
export const VERSION_TEXT = "{fields.VERSION_TEXT}";

// How many words of 64 bits a hash in pieces has.
export const STATE_WORDS = {c_library.STATE_WORDS};

// How many a field that the caller chooses has.
export const FIELD_WORDS = {c_library.FIELD_WORDS};

// The name of each status, and its sentence.
export const STATUSES = {{
{statuses}}};

// The parameters of each function: kind, name and word.
export const FUNCTIONS = {{
{functions}}};

// The fields, the levels of the tower first.
export const FIELDS = [
{rows}];

// The Cantor vectors of the level of 16 bits, which each larger level has too: the first is 1, and of v^2 + v each
// other one makes the one before.
export const CANTOR_VECTORS = {json.dumps(cantor.vectors()[:16])};
"""


def types():
    """The type of each field, by its array and its element."""
    rows = ""
    for it in fields.FIELDS:
        element = "bigint" if it.bits >= 64 else "number"
        rows += f"  /** {it.about}. */\n  readonly {it.type_name}: Field<{ARRAYS[it.word]}, {element}>;\n"
    return f"""\
// The fields by their names. {WRITTEN}
import type {{ Field }} from "./binary_field";

export interface Fields {{
{rows}}}
"""


def with_version(path):
    """A file with its version, which stands in a line of its own, as the file VERSION has it."""
    text = (files.TOP / path).read_text(encoding="utf-8")
    return re.sub(r'^  "version": ".*",$', f'  "version": "{fields.VERSION_TEXT}",', text, count=1, flags=re.MULTILINE)


def main():
    files.keep("javascript/tables.mjs", tables())
    files.keep("javascript/fields.d.ts", types())
    files.keep("javascript/package.json", with_version("javascript/package.json"))


if __name__ == "__main__":
    main()
