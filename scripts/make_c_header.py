#!/usr/bin/env python3
"""Writes the header of the C library, include/binary_field.h, for C99 and C++, from the tables of fields.py and c_library.py. With
--check it compares instead."""

import functools
import re
import sys
import textwrap

import c_library
import fields
import files
from c_library import sentence

# The columns of a line.
COLUMNS = 120

POINTERS = {"in": "const ", "inout": "", "out": "", "result": "", "space": ""}
ARRAYS = ("in", "inout", "out", "space")

# Texts come from the table that doc comments of the proved crate come from too, in words of its sources; the header has the usual ones.
USUAL = [
    ("at each place", "at each index"), ("at its place", "at its index"), ("at place ", "at index "), ("processor at hand", "processor"),
    ("whose form of the functions", "whose variant of the functions"), ("The form is chosen", "The variant is chosen"),
]

# The lengths of shards of an erasure code by transforms.
ERASURE_LENGTHS = "shards has data, and parity_shards parity, times one number of words, which is not 0, and space at least what bf_erasure_space gives"

# Which lengths a function takes, where they are not all the same, by the end of its name.
LENGTHS = {
    "evaluate": "points and values have one length",
    "r8_linear_map": "values and mapped have one length, and there are 8 images",
    "g128_linear_map": "values and mapped have one length, and there are 128 images",
    "low_stages": "values has a multiple of 16, shifts 4 and basis 3 to 128; where there are values, first_run and the number of runs "
    "are together at most 2 to the power of 3 less than the length of basis",
    "transform": "values has 2^m elements, for an m from 0 to 40",
    **{f"{it}_{name}": f"values has 2^m elements, for an m from 0 to {it[1:]}" for it in ("t16", "t32") for name in ("transform", "inverse_transform")},
    "tag_ghash": "key and hash have 16 bytes",
    "tag_polyval": "key and hash have 16 bytes",
    "tag_gcm_ghash": "key and hash have 16 bytes, and associated and ciphertext below 2^61 each",
    "tag_ghash_init": "key has 16 bytes",
    "tag_polyval_init": "key has 16 bytes",
    "tag_ghash_final": "hash has 16 bytes",
    "tag_polyval_final": "hash has 16 bytes",
    "tag_gcm_ghash_final": "hash has 16 bytes, and both lengths are below 2^61",
    "tags_are_equal": "",
    "rs_encode": "shards has a multiple, but not 0, of data + parity bytes",
    "rs_verify": "shards has a multiple, but not 0, of data + parity bytes",
    "rs_tables_length": "",
    "rs_add_shard": "tables has the bytes that bf_rs_tables_length gives, data_shard is below data and parity_shard below parity, and shard and sums "
    "have one length",
    "rs_shard_factors": "present and factors have data + parity bytes, and shard is below data + parity and missing",
    "rs_prepare": "tables has the bytes that bf_rs_tables_length gives",
    "prepared": "tables has the bytes that bf_rs_tables_length gives, and shards a multiple, but not 0, of data + parity",
    "reconstruct": "shards has a multiple, but not 0, of data + parity bytes, and present has data + parity",
    "reconstruct_data": "shards has a multiple, but not 0, of data + parity bytes, and present has data + parity",
    "prepare_reconstruct": "tables has the bytes that bf_rs_tables_length gives, and present has data + parity",
    "reconstruct_prepared": "tables has the bytes that bf_rs_tables_length gives, shards a multiple, but not 0, of data + parity, and present data + parity",
    "data_prepared": "tables has the bytes that bf_rs_tables_length gives, shards a multiple, but not 0, of data + parity, and present data + parity",
    "matrix_multiply": "left has rows * inner elements, right inner * columns, and product rows * columns",
    "matrix_row_reduce": "matrix has rows * columns elements, and pivots rows places",
    "matrix_rank": "matrix and space have rows * columns elements, and places has rows places",
    "matrix_determinant": "matrix and space have size * size elements",
    "matrix_inverse": "matrix and inverse have size * size elements, space 2 * size * size, and places size places",
    "matrix_solve": "matrix has rows * columns elements, right rows, solution columns, space rows * (columns + 1), and places rows places",
    "bit_matrix_multiply": "left has rows * ceil(inner / 64) words, right inner * ceil(columns / 64), and product rows * ceil(columns / 64)",
    "bit_matrix_transpose": "matrix has rows * ceil(columns / 64) words, and transposed columns * ceil(rows / 64)",
    "bit_matrix_row_reduce": "matrix has rows * ceil(columns / 64) words, and pivots rows places",
    "bit_matrix_rank": "matrix and space have rows * ceil(columns / 64) words, and places has rows places",
    "answer": "answer has at least as many bytes as are written, for which 48 are enough",
    "code_encode": "words has a multiple of symbols",
    "code_syndromes": "words has a multiple of symbols, and syndromes symbols - data for each word",
    "code_correct": "words has a multiple of symbols, erasures as many bytes or none, and corrected one for each word",
    "code_encode_interleaved": "words has a multiple of symbols",
    "code_syndromes_interleaved": "words has a multiple of symbols, and syndromes symbols - data for each word",
    "code_correct_interleaved": "words has a multiple of symbols, erasures one byte for each symbol of a word or none, syndromes symbols - data for each "
    "word, and corrected one for each",
    "code_are_words": "words has a multiple of symbols, and flags one for each word",
    "field_code_encode": "words has a multiple of symbols, and space symbols - data + 1",
    "field_code_correct": "words has a multiple of symbols, erasures as many bytes or none, corrected one for each word, space 2 * symbols + "
    "5 * (symbols - data) + 3, marks 2 * symbols, and places symbols",
    "bch_data": "",
    "bch_encode": "words has a multiple of bits",
    "bch_are_words": "words has a multiple of bits, and flags one for each word",
    "bch_correct": "words has a multiple of bits, erasures as many or none, and corrected one for each word",
    "secret_split": "secret has a byte or more, draws needed - 1 times as many, and shares count times as many",
    "secret_combine": "secret has a byte or more, and shares as many for each of indexes",
    "secret_combine_correcting": "secret has a byte or more, and shares as many for each of indexes",
    "erasure_space": "",
    "erasure_encode": ERASURE_LENGTHS,
    "erasure_verify": ERASURE_LENGTHS,
    "erasure_reconstruct": f"{ERASURE_LENGTHS}, and present has data + parity",
}

# What a function takes of the stack, where it is much.
STACK = {
    "erasure_reconstruct": "It takes 64 KiB of the stack, for the flags of the shards.",
    "t8_matrix_multiply": "It takes 64 KiB of the stack.",
    "r8_matrix_multiply": "It takes 64 KiB of the stack.",
}


def lengths_of(name, parameters):
    """What has to hold of the lengths, or nothing where every length will do."""
    for end in sorted(LENGTHS, key=len, reverse=True):
        if name.endswith(end):
            return LENGTHS[end]
    names = [it[1] for it in parameters if it[0] in ARRAYS]
    if len(names) < 2:
        return ""
    return f"{', '.join(names[:-1])} and {names[-1]} have one length"


def statuses_of(name, parameters, bits):
    """The statuses besides BF_OK that a function returns, each with its condition."""
    if name == "field_init":
        yield "BF_REDUCIBLE", "that polynomial is irreducible, of a degree from 1 to 128, and tail has lower terms alone"
        return
    if name in ("field_next_irreducible", "field_next_primitive"):
        yield "BF_UNSOLVABLE", "there is one, of a degree from 1 to 128"
        return
    if name.startswith("field_code_"):
        yield from field_code_statuses(name, parameters)
        return
    if name.startswith("field_"):
        yield from field_statuses(name, parameters)
        return
    if name.startswith("rs_") and any(it[1] == "data" for it in parameters):
        yield "BF_CODE", "data and parity are not both at least 1 and together at most 256"
    if name.startswith("erasure_"):
        yield "BF_CODE", "data and parity are not both at least 1, or data, counted up to a power of two, and parity are together more than 65536"
    if name.startswith("code_"):
        yield "BF_CODE", (
            "modulus is none of those above, data is 0 or not below symbols, symbols is above 255, or a power of g^root_step with an exponent from 1 to "
            "symbols - 1 is 1"
        )
    if name.startswith("bch_"):
        yield "BF_CODE", (
            "modulus is none of those above, errors is 0, 2 * errors is not below bits, bits is above 255, a power of g^root_step with an exponent from 1 to "
            "bits - 1 is 1, or no bits are left for data"
        )
    if name == "secret_split":
        yield "BF_CODE", "modulus is another number, or not 2 <= needed <= count <= 255"
    if name == "secret_combine":
        yield "BF_CODE", "modulus is another number, or needed is below 2"
    if name == "secret_combine_correcting":
        yield "BF_CODE", "modulus is another number"
        yield "BF_LENGTH", "wrong has a byte for each of indexes"
        yield "BF_CODE", "needed is below 2"
    if name.startswith("secret_combine"):
        yield "BF_TOO_FEW_SHARDS", "there are at least needed indexes"
        yield "BF_CODE", "there are more than 255 indexes, one is 0, or two are equal"
    lengths = lengths_of(name, parameters)
    if lengths:
        yield "BF_LENGTH", lengths
    if name == "bch_encode":
        yield "BF_NOT_AN_ELEMENT", "each byte of data is 0 or 1"
    if name == "secret_combine":
        yield "BF_UNSOLVABLE", "the shares lie, byte by byte, on polynomials of needed coefficients"
    if name == "secret_combine_correcting":
        yield "BF_UNSOLVABLE", "so few shares are wrong"
    if bits < 8 and any(it[0] in ("in", "inout", "scalar") for it in parameters):
        yield "BF_NOT_AN_ELEMENT", f"each word that is read is below {1 << bits}"
    yield from matrix_statuses(name)
    if "reconstruct" in name or name == "rs_shard_factors":
        yield "BF_TOO_FEW_SHARDS", "at least as many entries of present as data are not 0"


def matrix_statuses(name):
    """Those by which a matrix has no inverse, and equations no solution."""
    if name.endswith("matrix_inverse"):
        yield "BF_UNSOLVABLE", "the matrix has an inverse"
    if name.endswith("matrix_solve"):
        yield "BF_UNSOLVABLE", "there is a solution"


def field_code_statuses(name, parameters):
    """Those of a code over such a field."""
    yield "BF_REDUCIBLE", "field names a field, as what bf_field_init made does"
    yield "BF_CODE", (
        "the field has more than 65536 elements, data is 0 or not below symbols, symbols is above 65535, root is 0 or no element, or a power of it with an "
        "exponent from 1 to symbols - 1 is 1"
    )
    yield "BF_LENGTH", lengths_of(name, parameters)
    yield "BF_NOT_AN_ELEMENT", f"each symbol{' of data' if name == 'field_code_encode' else ''} is an element"


def field_statuses(name, parameters):
    """Those of a function over a field that the caller chooses."""
    if name == "field_primitive_element":
        yield "BF_UNSOLVABLE", "there is one below 65536, as in every field that has been looked at"
    if name in ("field_trace_to", "field_norm_to"):
        yield "BF_UNSOLVABLE", "subfield_degree divides the degree of the field"
    if name == "field_minimal_polynomial":
        yield "BF_NOT_AN_ELEMENT", "element is one of the field"
    if name == "field_embedding":
        yield "BF_UNSOLVABLE", "the degree of source divides that of target"
    if name == "field_embed":
        yield "BF_UNSOLVABLE", "root is a root of the modulus of source in target"
    if lengths := lengths_of(name, parameters):
        yield "BF_LENGTH", lengths
    if any(it[0] in ("in", "inout") for it in parameters):
        yield "BF_NOT_AN_ELEMENT", "each word that is read is below 2^degree"
    if name == "field_logarithm":
        yield "BF_UNSOLVABLE", "each element is a power of the base"
    yield from matrix_statuses(name)


def comment(text):
    """A comment of C, its lines filled."""
    for own, usual in USUAL:
        text = text.replace(own, usual)
    return "/* " + "\n * ".join(textwrap.wrap(text, COLUMNS - 6, break_long_words=False)) + " */\n"


@functools.cache
def own_names():
    """A pattern of the names of functions as the tables have them, but for one that is a plain word."""
    return re.compile(rf"(?<!\w)({'|'.join(name for name, _, _ in c_library.functions() if '_' in name)})(?!\w)")


def told(name, parameters, bits, text):
    """What a function computes, after the name of what it writes where that is one thing, when it returns which status, and what it takes of
    the stack, where that is much. Functions are named as C has them, and lengths that a status tells stand there alone."""
    before, _, last = text.rpartition("; ")
    text = own_names().sub(r"bf_\1", before if before and lengths_of(name, parameters).startswith(last) else text)
    written = [it for kind, it, word in parameters if kind in ("out", "result") or word == "bool"]
    words = [f"{written[0]}: {text}." if len(written) == 1 else sentence(text, parameters)]
    for status, condition in statuses_of(name, parameters, bits):
        words.append(f"{status} {'if' if status == 'BF_CODE' else 'unless'} {condition}.")
    if name in STACK:
        words.append(STACK[name])
    return " ".join(words)


def declared(parameters):
    """The parameters of a function as C declares them, an array with its length."""
    for kind, name, word in parameters:
        it = c_library.WORDS[word]
        if kind in ARRAYS:
            yield f"{POINTERS[kind]}{it} *{name}, size_t {name}_length"
        elif kind in ("result", "state"):
            yield f"{it} *{name}"
        elif kind == "scalar" and word in c_library.STRUCTS:
            yield f"const {it} *{name}"
        else:
            yield f"size_t {name}" if kind == "count" else f"{it} {name}"


def attributes(parameters):
    """What compilers are told of a function: that its status has to be looked at, and which pointers are never NULL."""
    place = 1
    yield "BF_CHECKED"
    for kind, _, word in parameters:
        if kind in ("result", "state") or kind == "scalar" and word in c_library.STRUCTS:
            yield f"BF_NONNULL({place})"
        place += 2 if kind in ARRAYS else 1


def declaration(name, parameters):
    """The declaration of a function. A line is cut behind a parameter, and never between a pointer and its length."""
    parts = [f"{it}," for it in declared(parameters)]
    parts[0] = f"uint32_t bf_{name}({parts[0]}"
    parts[-1] = f"{parts[-1].removesuffix(',')}) {' '.join(attributes(parameters))};"
    kept = " ".join(it.replace(" ", "\0") for it in parts)
    return textwrap.fill(kept, COLUMNS, subsequent_indent="    ", break_long_words=False).replace("\0", " ") + "\n"


class Section:
    """A part of the header: its subject for the head's list, its heading, and its functions: their names, parameters, texts, and bits of the
    field, 64 for no field. What the header itself defines stands behind the last function whose name begins so, or before all."""

    def __init__(self, subject, heading, rows, defined=()):
        self.subject, self.heading, self.rows, self.defined = subject, heading, rows, dict(defined)

    def text(self):
        """The part of the header."""
        out = [f"/* {'-' * (COLUMNS - 6)} */\n{comment(self.heading)}\n", self.defined.get("", "")]
        for at, (name, parameters, text, bits) in enumerate(self.rows):
            out.append(f"{comment(told(name, parameters, bits, text))}{declaration(name, parameters)}\n")
            following = self.rows[at + 1][0] if at + 1 < len(self.rows) else ""
            out += [it for start, it in self.defined.items() if start and name.startswith(start) and not following.startswith(start)]
        return "".join(out)


def field_rows(field, functions):
    """Functions of a field."""
    return [(f"{field.name}_{name}", c_library.typed(parameters, field.word), text, field.bits) for name, parameters, text in functions]


def field_sections():
    """The functions of each field, and then those of matrices over each."""
    for field in fields.FIELDS:
        below = f", below {1 << field.bits}" if field.bits < 8 else ""
        heading = f"{field.name}: {field.about}. An element is a {c_library.WORDS[field.word]}{below}."
        yield Section(field.name, heading, field_rows(field, c_library.FIELD_FUNCTIONS))
    for field in fields.FIELDS:
        yield Section("matrices over each field", f"Matrices over {field.name}.", field_rows(field, c_library.MATRIX_FUNCTIONS))


def place_of(name):
    """Where a function of no field stands: in which of SUBJECTS, and by which of its patterns."""
    for subject, (_, _, patterns) in enumerate(SUBJECTS):
        for place, pattern in enumerate(patterns):
            if re.search(pattern, name):
                return subject, place
    sys.exit(f"make_c_header: {name} has no subject")


def other_sections():
    """The functions of no field."""
    rest = [(*it, 64) for it in sorted(c_library.other_functions(), key=lambda it: place_of(it[0]))]
    for at, (subject, heading, _) in enumerate(SUBJECTS):
        yield Section(subject, heading, [it for it in rest if place_of(it[0])[0] == at], DEFINED.get(subject, ()))


def sections():
    """The sections of the header, in order."""
    yield from field_sections()
    yield from other_sections()


def about(parts):
    """The head's comment, whose last paragraph says what stands where in the header."""
    subjects = ", ".join(dict.fromkeys(it.subject for it in parts))
    names = ", ".join(it[0] for it in (*c_library.FIELD_FUNCTIONS, *c_library.MATRIX_FUNCTIONS))
    paragraphs = [
        "Binary fields, proved: the functions of libbinary_field.", files.generated("make_c_header.py"), *ABOUT.split("\n\n"),
        f"Sections, in this order: {subjects}. Each field has functions bf_FIELD_NAME of these names: {names}.",
    ]
    filled = [textwrap.fill(it, COLUMNS, initial_indent=" * ", subsequent_indent=" * ", break_on_hyphens=False) for it in paragraphs]
    return "\n *\n".join(["/*" + filled[0].removeprefix(" *"), *filled[1:]]) + "\n */\n"


def statuses():
    """The statuses, and the sentence of each."""
    rows = "".join(f"{comment(sentence(text))}#define {name} {value}u\n" for name, value, text in c_library.STATUSES)
    cases = "".join(f'    case {name}: return "{text}";\n' for name, _, text in c_library.STATUSES)
    return f"{rows}{STATUS_TEXT.replace('CASES', cases)}"


def header():
    """The header."""
    parts = list(sections())
    out = [about(parts), HEAD.format(version=fields.VERSION_NUMBER, number=fields.VERSION_TEXT, state_words=c_library.STATE_WORDS,
                                       field_words=c_library.FIELD_WORDS), statuses()]
    for name, word, text in (*c_library.PLAIN_FUNCTIONS, *c_library.CHOICE_FUNCTIONS):
        out.append(f"{comment(sentence(text))}{word} bf_{name}(void);\n\n".replace("* bf_", "*bf_"))
    return "".join([*out, *(it.text() for it in parts), TAIL])


CODES = """\
Reed-Solomon codes over bytes modulo x^8 + x^4 + x^3 + x^2 + 1: shard i has the values at the byte i of the polynomials that the data
determine.
"""

PACKED = """\
Matrices over GF(2) whose rows are packed in words of 64 bits, row after row: a row of so many columns takes ceil(columns / 64) words, and
column j of it is bit j % 64 of its word j / 64. The bits behind the columns are 0: a word where they are not is no element.
"""

CHOSEN = """\
Fields of 2^m elements, m from 1 to 128, modulo any irreducible polynomial: bf_field_init makes a struct of the caller of it, and tells
exactly whether there is such a field. The modulus is x^m and the terms of tail, whose bit i is the coefficient of x^i. The struct has no
address in it and may be copied: words[0] is m, and words[1] and words[2] the tail. An element is a bf_u128 below 2^m. A call first tests
anew that the modulus is irreducible, which takes as many squarings as m, so that many elements in one call cost less an element; it
returns BF_REDUCIBLE where a struct that bf_field_init did not make names no field.
"""

TRANSFORMS = """\
Stages of additive transforms over g128, and the whole transform over g128 and levels of the tower. s_0(x) = x, and s_(j+1)(x) = s_j(x)^2
+ s_j(x). The basis of subspace polynomials is the products of the s_j: coefficient k is that of the product of the s_j over the set bits
j of k. Point p is the shift, and Cantor vector b for each set bit b of p; vector 0 is 1, and of v^2 + v each other vector v makes the one
before. In the low stages the factor of stage j at place p is shifts[j], and basis[t] for each set bit t of p >> (j + 1).
"""

TAGS = """\
Hashes of authentication tags. Nothing is claimed on timing. A message in pieces of any length is hashed by a struct of the caller:
bf_tag_ghash_init makes it of the key, bf_tag_ghash_update adds bytes to its message, and bf_tag_ghash_final writes what bf_tag_ghash gives
of the whole message. It has no address in it, so that a copy of it goes on by itself, and one that was made of a key serves for many
messages; it tells the key. By one that these functions did not make a call writes bytes of which nothing is said. For GCM the associated
data come first, then bf_tag_ghash_pad, and then the ciphertext, and bf_tag_gcm_ghash_final writes what bf_tag_gcm_ghash gives. GCM-SIV
goes so by POLYVAL, over the plain text: behind that come bf_tag_polyval_pad, 16 bytes more, which are both lengths in bits, 8 bytes each,
the lowest first, and bf_tag_polyval_final.
"""

CORRECTING = """\
Reed-Solomon codes over bytes that correct errors. A word has so many symbols, at most 255, of which so many are data and come first. The
first symbol is the coefficient of the highest power, and a word is one of the code where its polynomial is 0 at each root: g to the power
of root_step * (first_root + m), for each m below symbols - data. The field is that of the modulus, bit i for x^i, and g the generator
that standards take: 0x11d (QR codes, DVB) and 0x187 (CCSDS) with g = x, and 0x11b (AES) with g = x + 1. So QR codes have first_root 0 and
root_step 1, DVB has 204, 188, 0 and 1, and CCSDS 255, 223, 112 and 11, its bytes in the basis 1, x, .., x^7. Words stand one after the
other, and each call finds the code anew, which takes as long as some words: many words at once are faster.
"""

FIELD_CODES = """\
The same codes over a field of the caller's choice, of up to 65536 elements, with words of up to 65535 symbols. A symbol is an element, bit
i for x^i. The roots are root to the power of first_root + m, for each m below symbols - data, where root is any element of an order that
is at least symbols. The same words over bytes are faster by the functions above.
"""

BCH = """\
Binary BCH codes: words of so many bits, at most 255, each a byte that is 0 or 1, of which the data come first. The first bit is the
coefficient of the highest power, and a word is one of the code where its polynomial is 0 at the powers 1 to 2 * errors of g^root_step, of
the field of the modulus as above. The order of that power is the length of a whole word: 255 for root_step 1, and 15 for 17, which is the
code over the field of 16 elements. With fewer bits a word is shortened: it lacks data at its front.
"""

ERASURE = """\
Reed-Solomon codes over t16 by additive transforms, of thousands of shards: column i of the shards, their word i, has the values of one
polynomial. With 2^n the least power of two that is at least data, it has a degree below 2^n; shard j of data is its value at point j,
shard j of parity that at point 2^n + j, and it is 0 at the points from data to 2^n. Point p is the sum of Cantor vector b for each set
bit b of p, as above. Shards of data stand one after the other, and so do those of parity, in an array of their own. A call works in
space, with as many columns at once as pays; what that has before does not matter, and behind the call nothing is said of it.
"""

SECRETS = """\
Shares of a secret (A. Shamir, How to share a secret, 1979), byte by byte: a byte of the secret is the constant coefficient of a polynomial
over 256 elements, whose other needed - 1 coefficients are drawn bytes, row after row in draws, that of x first. A share has the values of
these polynomials at its index, a byte other than 0. These calls draw nothing and keep nothing: what was passed to them is left where it is.
Bytes of a secret, of draws and of shares are masked, shifted and added, and nothing is looked up by them.
"""

LINES = """\
Lines of text: a field by its name above, an operation (add, mul, square, inv or sqrt) and its operands, with spaces between. An operand has
two hexadecimal digits for each byte of an element, the highest byte first; of p192 the three coefficients stand so, that of 1 first. An
answer has the same form in lower case, or is none for the inverse of 0, or else error and the number of what is wrong with the line.
"""

# How many bytes the tables of a code take, as a constant.
TABLES_LENGTH = """\
/* How many bytes the tables of a code take, as bf_rs_tables_length gives it, for an array of that length. */
#define BF_RS_TABLES_LENGTH(data, parity) ((size_t)128 * (data) * (((parity) + 3) / 4))

"""

# Shards that stand apart.
ENCODE_POINTERS = """\
/* Writes the shards of parity of shards that stand apart, each of size bytes: the pointers are those of the shards of
 * data and of parity, of which none of parity overlaps another shard. tables is what bf_rs_prepare wrote for this code.
 * It is bf_rs_add_shard for each pair of shards, and no function of the library: it is tested and not proved. BF_CODE
 * and BF_LENGTH are those of bf_rs_add_shard. */
static inline uint32_t BF_CHECKED bf_rs_encode_pointers(size_t data, size_t parity, const uint8_t *tables,
    size_t tables_length, const uint8_t *const *shards, uint8_t *const *parity_shards, size_t size)
{
    size_t row, place, at;
    /* Without bytes a call tells whether the counts and the tables fit, before anything is written. */
    uint32_t status = bf_rs_add_shard(data, parity, tables, tables_length, 0, 0, NULL, 0, NULL, 0);
    for (row = 0; status == BF_OK && row < parity; row++) {
        for (place = 0; place < size; place++) {
            parity_shards[row][place] = 0;
        }
        for (at = 0; status == BF_OK && at < data; at++) {
            status = bf_rs_add_shard(
                data, parity, tables, tables_length, at, row, shards[at], size, parity_shards[row], size);
        }
    }
    return status;
}

"""

RECONSTRUCT_POINTERS = """\
/* Writes the missing shards of shards that stand apart, each of size bytes. shards has the pointers of those of
 * data, and then of those of parity; a shard that is missing overlaps no other. Shard i is missing where present[i]
 * is 0; where its pointer is NULL too it is left out, as those of parity may be. This is bf_rs_shard_factors for
 * each missing shard, and bf_rs_add_multiple for each pair, and no function of the library: it is tested and not
 * proved. BF_CODE, BF_LENGTH (of a size of 0) and BF_TOO_FEW_SHARDS come as from bf_rs_reconstruct, and then the
 * shards are as before. */
static inline uint32_t BF_CHECKED bf_rs_reconstruct_pointers(
    size_t data, size_t parity, uint8_t *const *shards, const uint8_t *present, size_t size)
{
    uint8_t factors[256];
    uint64_t tables_length;
    size_t lost, place, at;
    /* This tells whether there is such a code, before flags are read. */
    uint32_t status = bf_rs_tables_length(data, parity, &tables_length);
    if (status == BF_OK && size == 0) {
        status = BF_LENGTH;
    }
    for (lost = 0; status == BF_OK && lost < data + parity; lost++) {
        if (present[lost]) {
            continue;
        }
        status = bf_rs_shard_factors(data, parity, present, data + parity, lost, factors, data + parity);
        for (place = 0; status == BF_OK && shards[lost] && place < size; place++) {
            shards[lost][place] = 0;
        }
        for (at = 0; status == BF_OK && shards[lost] && at < data + parity; at++) {
            if (factors[at]) {
                status = bf_rs_add_multiple(factors[at], shards[at], size, shards[lost], size);
            }
        }
    }
    return status;
}

"""

# What the header itself defines, by the subject of a section.
DEFINED = {"codes over bytes": {"": TABLES_LENGTH, "rs_encode": ENCODE_POINTERS, "rs_reconstruct": RECONSTRUCT_POINTERS}}

STATUS_TEXT = """\

/* The sentence of a status, without a full stop. It never returns NULL. */
static inline const char *bf_status_text(uint32_t status)
{
    switch (status) {
CASES    default: return "unknown status";
    }
}

"""

# The subjects of the functions of no field, in their order: a subject, its heading, and patterns of names, in whose order functions stand.
SUBJECTS = [
    ("changes of basis and linear maps", "Changes of basis, and linear maps over GF(2).", [r"_to_", r"_linear_map$"]),
    ("packed matrices over GF(2)", PACKED, [r"^bit_matrix_"]),
    ("fields of the caller's choice", CHOSEN, [rf"^field_{it}" for it in ("init$", "(?!code_|matrix_)", "matrix_")]),
    ("transforms", TRANSFORMS, [r"_butterfly_|_low_stages$", r"_transform$"]),
    ("tags", TAGS, [r"ghash|polyval", r"^tags_"]),
    # What others call comes first.
    ("codes over bytes", CODES, [
        rf"^rs_{it}" for it in ("tables_length$", "prepare$", "add_shard$", "encode", "verify", "shard_factors$", "add_multiple$",
                          "prepare_reconstruct$", "reconstruct")
    ]),
    ("codes that correct errors", CORRECTING, [r"^code_"]),
    ("codes over fields of the caller's choice", FIELD_CODES, [r"^field_code_"]),
    ("binary codes that correct errors", BCH, [rf"^bch_{it}" for it in ("data$", "")]),
    ("codes by transforms", ERASURE, [r"^erasure_"]),
    ("shares of a secret", SECRETS, [r"^secret_"]),
    ("lines of text", LINES, ["^answer$"]),
]

# The paragraphs of the head's comment behind the first two.
ABOUT = """\
Elements. An element is an unsigned number, and a sum is the exclusive or. In the tower the low half of the bits is the part without the
root that the level adjoins. In a polynomial basis bit i is the coefficient of x^i; a block of GCM has its bits the other way round. A
bf_u128 has the low 64 bits in words[0]; a bf_u192 has the coefficient of 1 in words[0], that of y in words[1] and that of y^2 in
words[2].

Arrays. An array is a pointer and a length, which counts elements and not bytes. The pointer may be NULL where the length is 0; a scalar,
a result or a state is never NULL. Each pointer is aligned as C aligns its type. An array, a result or a state that a function writes may
overlap nothing else of the same call; what is only read may overlap each other. For x = x * y there are the functions whose names end
in _in_place. In arrays named space and places a call works: behind it, whatever the status, nothing is said of what they hold. A comment
begins with the name of what the function writes. Where it says nothing of lengths, every length will do.

Statuses. Every function but bf_version, bf_processor and bf_status_text returns a status. On a status that is not BF_OK everything that
the function could write is as before the call, but for space and places. The first status applies, in the order in which a function's
comment names them.

Matrices. The elements of a matrix stand row after row. A number of rows or of columns may be 0, and others then as large as the lengths
allow: a call takes no time for rows or columns without elements.

Threads. A call reads and writes its arguments alone and keeps nothing, so that threads may call at the same time, as long as none writes
what another reads or writes. Nothing is claimed on timing; of bf_tags_are_equal it is said what was looked at.
"""

HEAD = """\
#ifndef BINARY_FIELD_H
#define BINARY_FIELD_H

#include <stdbool.h>
#include <stddef.h>
#include <stdint.h>

#ifdef __cplusplus
extern "C" {{
#endif

/* The version that this header belongs to, {number}; bf_version returns that of the library. */
#define BF_VERSION {version}u

/* What gcc and clang are told: a status has to be looked at, and which pointers are never NULL. */
#if defined(__GNUC__) || defined(__clang__)
#define BF_CHECKED __attribute__((warn_unused_result))
#define BF_NONNULL(place) __attribute__((nonnull(place)))
#else
#define BF_CHECKED
#define BF_NONNULL(place)
#endif

/* A number of 128 bits, the low half first. */
typedef struct bf_u128 {{
    uint64_t words[2];
}} bf_u128;

/* Three numbers of 64 bits, the coefficient of 1 first. */
typedef struct bf_u192 {{
    uint64_t words[3];
}} bf_u192;

/* A hash of GHASH in pieces: what it holds is read and written by the functions bf_tag_ghash_* alone, and by
 * bf_tag_gcm_ghash_final. */
typedef struct bf_ghash_state {{
    uint64_t words[{state_words}];
}} bf_ghash_state;

/* A hash of POLYVAL in pieces, for the functions bf_tag_polyval_*. */
typedef struct bf_polyval_state {{
    uint64_t words[{state_words}];
}} bf_polyval_state;

/* A field modulo a polynomial of the caller's choice, for the functions bf_field_*. */
typedef struct bf_field {{
    uint64_t words[{field_words}];
}} bf_field;

"""

TAIL = """\
#ifdef __cplusplus
}
#endif

#endif
"""


def main():
    text = header()
    if long := [it for it in text.splitlines() if len(it) > COLUMNS]:
        sys.exit(f"make_c_header: more than {COLUMNS} columns: {long[0]}")
    files.keep("include/binary_field.h", text)


if __name__ == "__main__":
    main()
