#!/usr/bin/env python3
"""Writes what Python and Rust call the C library by, from the tables of fields.py and c_library.py. With --check it compares instead.

    python/binary_field/_functions.py    the functions with their parameters, for ctypes
    python/binary_field/_fields.py       a class for each field
    rust/src/functions.rs                the functions as Rust declares foreign ones
    rust/src/error.rs                    the statuses as errors
    rust/src/fields.rs                   a type for each field, by the macros of rust/src/field_macros.rs
    python/pyproject.toml                the version alone
    rust/Cargo.toml                      the version alone; so in rust/features/Cargo.toml
"""

import re
import textwrap

import c_library
import cantor
import fields
import files
from c_library import sentence
from make_c_header import ARRAYS, STACK, other_sections, told

WRITTEN = files.generated("make_bindings.py")
# The words of the library as Rust passes them, and as an element holds them.
PASSED = {"u8": "u8", "u16": "u16", "u32": "u32", "u64": "u64", "u128": "[u64; 2]", "u192": "[u64; 3]", "usize": "usize", "bool": "bool"}
PASSED |= {it: f"[u64; {c_library.STATE_WORDS}]" for it in ("ghash_state", "polyval_state")}
PASSED["field"] = f"[u64; {c_library.FIELD_WORDS}]"
HELD = PASSED | {"u128": "u128"}
# How the sentence begins that tells of a field below a byte which words are elements.
BELOW = "BF_NOT_AN_ELEMENT unless each word that is read is below"
# The columns of a line of Rust, and what stands for a space at which no line is cut.
COLUMNS, KEPT = 140, "\N{NO-BREAK SPACE}"


# ---- Python


def python_functions():
    """The functions for ctypes."""
    statuses = "".join(f'    {value}: ("{name}", "{text}"),\n' for name, value, text in c_library.STATUSES)
    functions = ""
    for name, parameters, _ in c_library.functions():
        # A count is a number, since ctypes passes both alike.
        row = ", ".join(f'("{"number" if kind == "count" else kind}", "{it}", "{word}")' for kind, it, word in parameters)
        functions += f'    "{name}": [{row}],\n'
    return f'''\
"""The functions of libbinary_field. {WRITTEN}"""

# The version that this package belongs to, as bf_version returns it and as people write it.
VERSION = {fields.VERSION_NUMBER}
VERSION_TEXT = "{fields.VERSION_TEXT}"

# How many words of 64 bits a hash in pieces has.
STATE_WORDS = {c_library.STATE_WORDS}

# How many a field that the caller chooses has.
FIELD_WORDS = {c_library.FIELD_WORDS}

# The name of each status, and its sentence.
STATUSES: dict[int, tuple[str, str]] = {{
{statuses}}}

# The parameters of each function: kind, name and word.
FUNCTIONS: dict[str, list[tuple[str, str, str]]] = {{
{functions}}}
'''


def made_of(field):
    """What a class makes arrays of, as FieldArray says it."""
    text = (
        f"`{field.type_name}(x)` makes one of integers from 0 to 2**{field.bits} - 1, which are representations, of texts of hexadecimal digits, of "
        "nested lists of them, of integers of numpy, and of elements of a field that this one contains or is isomorphic to."
    )
    return textwrap.indent(textwrap.fill(text, 130), "    ") + "\n"


def python_fields():
    """The classes of the fields."""
    out = [f'"""The fields, each a class of arrays. {WRITTEN}"""\n\nfrom ._arrays import FieldArray\n']
    for field in fields.FIELDS:
        out.append(f'\n\nclass {field.type_name}(FieldArray):\n    """Arrays over {field.about}.\n\n{made_of(field)}    """\n\n')
        out.append(f'    __slots__ = ()\n    degree = {field.bits}\n    _name = "{field.name}"\n    _word = "{field.word}"\n')
        if field.partner:
            out.append(f'    _partner = "{field.partner.name}"\n')
        if field.is_batched:
            out.append("    _is_batched = True\n")
    return "".join(out)


# ---- Rust


def rust_declared(parameters):
    """The parameters of a function as Rust declares them."""
    for kind, name, word in parameters:
        it = PASSED.get(word, word)
        if kind in ARRAYS:
            yield f"{name}: *{'const' if kind == 'in' else 'mut'} {it}"
            yield f"{name}_length: usize"
        elif kind in ("result", "state"):
            yield f"{name}: *mut {it}"
        elif kind == "scalar":
            yield f"{name}: {'$scalar' if it == '$word' else passed_alone(it)}"
        else:
            yield f"{name}: {'usize' if kind == 'count' else it}"


def passed_alone(it):
    """The type of one element that is read."""
    return f"*const {it}" if it.startswith("[") else it


def rust_comment(text, indent="    "):
    """A doc comment. It reads an index in brackets as a link, and a line that begins with a sign as that of a list, so that no line does."""
    kept = re.sub(r" ([*+-]) ", rf"{KEPT}\1 ", text.replace("[", "\\[").replace("]", "\\]"))
    lines = textwrap.wrap(kept.strip(), COLUMNS, initial_indent=f"{indent}/// ", subsequent_indent=f"{indent}/// ", break_long_words=False)
    return "".join(f"{it}\n".replace(KEPT, " ") for it in lines)


def rust_function(name, parameters, indent="    "):
    """A function as Rust declares a foreign one. A line is cut between parameters alone."""
    shown = ", ".join(it.replace(" ", KEPT) for it in rust_declared(parameters))
    whole = f"pub{KEPT}fn{KEPT}{name}({shown}){KEPT}->{KEPT}u32;"
    lines = textwrap.wrap(whole, COLUMNS, initial_indent=indent, subsequent_indent=f"{indent}    ", break_long_words=False)
    return "".join(f"{it}\n".replace(KEPT, " ") for it in lines)


def rust_of_each_field():
    """The functions that every field has, in a macro. A text has two sentences that some fields have alone: which words are no elements, and
    what is taken of the stack; so they are taken from the text of a field that has both, of 8 bits by its name and of one by its words."""
    indent, own = " " * 16, {f"{BELOW} 2.": "read", STACK["t8_matrix_multiply"]: "stack"}
    for name, parameters, text in [*c_library.FIELD_FUNCTIONS, *c_library.MATRIX_FUNCTIONS]:
        if name == "generator":
            continue
        said = told(f"t8_{name}", c_library.typed(parameters, "u8"), 1, text)
        for part in re.split(f"({'|'.join(map(re.escape, own))})", said):
            if part in own:
                yield f"{indent}$(#[doc = ${own[part]}])?\n"
            else:
                yield rust_comment(part, indent)
        yield f'{indent}#[link_name = concat!("bf_", stringify!($field), "_{name}")]\n'
        yield rust_function(name, c_library.typed(parameters, "$word"), indent)


def rust_rows_of_fields():
    """The fields as that macro takes them."""
    for field in fields.FIELDS:
        word, stack = PASSED[field.word], STACK.get(f"{field.name}_matrix_multiply")
        more = [f'read "{BELOW} {1 << field.bits}."'] * (field.bits < 8) + [f'stack "{stack}"'] * bool(stack)
        yield f"    {', '.join([f'{field.name}: {word}', passed_alone(word), *more])};\n"


def rust_functions():
    """The functions that the crate calls, as Rust declares foreign ones: those of a field in a module of its name."""
    statuses = "".join(f"/// {sentence(text)}\npub const {name}: u32 = {value};\n" for name, value, text in c_library.STATUSES)
    out = [RUST_FUNCTIONS.format(
        written=WRITTEN, statuses=statuses, of_each="".join(rust_of_each_field()), fields="".join(rust_rows_of_fields()),
    )]
    for name, _, text in c_library.CHOICE_FUNCTIONS:
        out.append(f"{rust_comment(sentence(text))}    pub fn bf_{name}() -> *const c_char;\n")
    for name, parameters, text, bits in (it for section in other_sections() for it in section.rows):
        out.append(rust_comment(told(name, parameters, bits, text)) + rust_function(f"bf_{name}", parameters))
    return "".join([*out, "}\n"])


RUST_FUNCTIONS = """\
//! The functions of libbinary_field. {written}
//!
//! An array is a pointer, which may be null beside a length of 0, and a length that counts elements. What is written overlaps
//! nothing else of the call. On a status that is not `BF_OK` everything that a function could write is as before, but for `space` and
//! `places`, in which it works. The function `bf_FIELD_NAME` of a field is `NAME` in the module `FIELD`.

use core::ffi::c_char;

{statuses}
/// The functions of fields, by a field's word and by what one element is passed as. Some fields have more to say, where words are read or of
/// the stack that the product of two matrices takes.
macro_rules! functions_of_fields {{
    ($($field:ident: $word:ty, $scalar:ty $(, read $read:literal)? $(, stack $stack:literal)?;)*) => {{$(
        #[doc = concat!("The functions of ", stringify!($field), ".")]
        pub mod $field {{
            unsafe extern "C" {{
{of_each}            }}
        }}
    )*}};
}}

functions_of_fields! {{
{fields}}}

unsafe extern "C" {{
"""


def rust_errors():
    """The statuses besides BF_OK as an enum, by the words of their names."""
    rows = [(name, "".join(map(str.title, name.split("_")[1:])), text) for name, value, text in c_library.STATUSES if value]
    variants = "".join(f"    /// {sentence(text)}\n    {variant},\n" for _, variant, text in rows)
    statuses = "".join(f"            functions::{name} => Err(Error::{variant}),\n" for name, variant, _ in rows)
    texts = "".join(f'            Error::{variant} => "{text.partition(",")[0]}",\n' for _, variant, text in rows)
    return f"""\
//! The statuses of the library. {WRITTEN}

use crate::functions;
use core::fmt;

/// Why a call did nothing: everything that it could write is as before, but for the space and places in which it works.
///
/// ```
/// use binary_field::{{Error, Field, Poly64}};
///
/// let error = Poly64::square_slice(&[Poly64::new(3)], &mut []).unwrap_err();
/// assert_eq!((error, error.to_string().as_str()), (Error::Length, "mismatched or invalid lengths"));
/// ```
#[derive(Clone, Copy, Debug, PartialEq, Eq, Hash)]
pub enum Error {{
{variants}}}

impl Error {{
    /// What a status of the library says.
    pub(crate) fn of(status: u32) -> Result<(), Error> {{
        match status {{
            functions::BF_OK => Ok(()),
{statuses}            other => panic!("the library has no status {{other}}"),
        }}
    }}
}}

/// A call that returns no status but BF_OK: its slices have lengths that fit, and its words are elements.
#[inline]
pub(crate) fn succeed(status: u32) {{
    if status != functions::BF_OK {{
        refused(status);
    }}
}}

#[cold]
fn refused(status: u32) {{
    Error::of(status).unwrap_or_else(|error| panic!("{{error}}"));
}}

impl fmt::Display for Error {{
    fn fmt(&self, formatter: &mut fmt::Formatter<'_>) -> fmt::Result {{
        formatter.write_str(match self {{
{texts}        }})
    }}
}}

impl core::error::Error for Error {{}}
"""


def rust_word(field, number):
    """A representation as Rust writes it."""
    return f"[{', '.join(map(hex, words_of(number)))}]" if field.word == "u192" else hex(number)


def words_of(number):
    """A number of 192 bits as three words, the lowest first."""
    return [number >> 64 * place & (1 << 64) - 1 for place in range(3)]


def rust_field(field):
    """A field by its macro, and by the module of its functions."""
    numbers = ", ".join(rust_word(field, it) for it in (0, 1, field.generator))
    more = ""
    if field.is_batched:
        more += f"    one_inverse_in: {field.partner.type_name},\n"
    if field.bits <= 8:
        more += f"    tables: {'Aes' if field.modulus else 'Tower'},\n"
    about = field.about.replace("[", "\\[").replace("]", "\\]")
    return f"field! {{\n    /// {about}.\n{rust_example(field)}    {field.type_name}({HELD[field.word]}), {field.bits}, {numbers}, {field.name},\n{more}}}\n"


def rust_example(field):
    """A product as an example, of the generator and the element of the highest bit."""
    name, left, right = field.type_name, field.generator, 1 << field.bits - 1
    made, used = (f"{name}::from", "") if field.word == "u192" else (f"{name}::from_repr", ", TowerLevel")
    x, y, product = (f"{made}({rust_word(field, it)})" for it in (left, right, field.multiply(left, right)))
    lines = ["```", f"use binary_field::{{{name}{used}}};", "", f"let x = {x};", f"let y = {y};", f"assert_eq!(x * y, {product});", "```"]
    return "".join(f"    /// {it}".rstrip() + "\n" for it in ["", *lines])


def rust_levels():
    """The levels of the tower and the fields isomorphic to one: the root that each adjoins, and the Cantor vectors."""
    vectors = cantor.vectors()
    for field in fields.FIELDS:
        if field.word == "u192":
            continue
        own, root = vectors[: field.bits], 1 if field.bits == 1 else 1 << field.bits // 2
        if field.modulus:
            own, root = [image_of(field, it) for it in own], field.root_images[-1]
        listed = textwrap.wrap(", ".join(map(hex, own)), 120)
        rows = "".join(f"        {it}\n" for it in listed)
        yield f"    {field.type_name}({HELD[field.word]}, {field.bits.bit_length() - 1}), {hex(root)}, [\n{rows}    ];\n"


def image_of(field, number):
    """The image of an element of the tower in a polynomial basis."""
    image = 0
    for place, column in enumerate(field.columns):
        image ^= column * (number >> place & 1)
    return image


def algebra_name(below, field):
    """What transcripts call a field as a space over a smaller one: the text that p3-binary-field has for it."""
    if field.level is None:
        return f"p3-binary-cubic-v1:y^3+y+1:{below.bits}:{field.bits}"
    return f"p3-Wiedemann-tower-v1:chunk-basis:{below.bits}:{field.bits}"


def rust_embeddings():
    """Each field with each subfield: the two, and the image of an element."""
    levels = [it for it in fields.FIELDS if it.level is not None]
    for field in fields.FIELDS[1:]:
        yield levels[0], field, f"{field.type_name}::from_bool(!it.is_zero())"
    for field in fields.FIELDS:
        for below in levels[1:]:
            if below.bits < field.bits and field.level is not None:
                yield below, field, f"{field.type_name}({HELD[field.word]}::from(it.0))" if below.word != field.word else f"{field.type_name}(it.0)"
            elif below.bits < field.bits and field.modulus:
                yield below, field, f"{field.type_name}::from({field.partner.type_name}::from(it))"
    yield fields.field_named("p64"), fields.field_named("p192"), "Poly192([it.0, 0, 0])"


def rust_fields():
    """The types of the fields, what makes their elements, the changes of basis, and the subfields."""
    words = "".join(f"    {it.type_name}({HELD[it.word]}, {it.bits // 8}),\n" for it in fields.FIELDS if it.bits >= 8 and it.word != "u192")
    parts = ", ".join(it.type_name for it in fields.FIELDS if it.bits < 8)
    bases, embeddings, subfields, extensions = "", "", "", ""
    for field in filter(lambda it: it.modulus, fields.FIELDS):
        for a, b in ((field.partner, field), (field, field.partner)):
            bases += f"    {a.type_name} {b.type_name} bf_{a.name}_to_{b.name};\n"
        subfields += f"    {field.partner.type_name} => {field.type_name};\n"
    for below, field, image in rust_embeddings():
        embeddings += f"    {below.type_name} => {field.type_name} by |it| {image};\n"
        subfields += f"    {below.type_name} => {field.type_name};\n"
        if below.bits >= 8 and (field.level is not None or field.word == "u192"):
            extensions += f'    {below.type_name} => {field.type_name}, {field.bits // below.bits}, b"{algebra_name(below, field)}";\n'
    return "\n".join([
        f"//! The fields. {WRITTEN}\n",
        "use crate::error::succeed;\nuse crate::functions::*;\nuse crate::space::sealed::Sealed;\nuse crate::words::Word;\n"
        "use crate::{\n    Algebra, AlgebraIdentity, BasedVectorSpace, Error, ExtensionField, Field, HasFrobenius, PACKING, Packable, Packed,\n"
        "    ParseError, PrimeCharacteristicRing, RawDataSerializable, TowerLevel,\n};\nuse alloc::vec::Vec;\nuse core::fmt;\n"
        "use core::iter::{Product, Sum};\nuse core::ops::{Add, AddAssign, Div, DivAssign, Mul, MulAssign, Neg, Sub, SubAssign};\n"
        "use core::str::FromStr;\n",
        *map(rust_field, fields.FIELDS),
        f"whole_words! {{\n{words}}}\n",
        f"parts_of_bytes!({parts});\n",
        "cubic!(Poly192 over Poly64);\n",
        f"as_bytes!({', '.join(f'{it.type_name} {-(-it.bits // 8)}' for it in fields.FIELDS)});\n",
        f"levels! {{\n{''.join(rust_levels())}}}\n",
        f"bases! {{\n{bases}}}\n",
        f"embeddings! {{\n{embeddings}}}\n",
        f"subfields! {{\n{subfields}}}\n",
        f"extensions! {{\n{extensions}}}\n",
    ])


def with_version(path):
    """A file with its version, which stands in a line of its own, as the file VERSION has it."""
    text = (files.TOP / path).read_text(encoding="utf-8")
    return re.sub(r'^version = ".*"$', f'version = "{fields.VERSION_TEXT}"', text, count=1, flags=re.MULTILINE)


def main():
    files.keep("python/binary_field/_functions.py", python_functions())
    files.keep("python/binary_field/_fields.py", python_fields())
    files.keep("rust/src/functions.rs", rust_functions())
    files.keep("rust/src/error.rs", rust_errors())
    files.keep("rust/src/fields.rs", rust_fields())
    for path in ("python/pyproject.toml", "rust/Cargo.toml", "rust/features/Cargo.toml"):
        files.keep(path, with_version(path))


if __name__ == "__main__":
    main()
