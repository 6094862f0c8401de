#!/usr/bin/env python3
"""Writes the calls that crates/replay_calls is run on and the answers that it has to print, its files stdin and stdout, and the
calls of the C library with what they leave, tests/replayed_calls.txt.

    make_vectors.py VECTORS

VECTORS is the JSON of another implementation's answers: a map with its seed, and a list or a map for each kind of call. A
few rows of each kind are kept: where a function of the C library has the definition, as its calls, and else as those of
crates/replay_calls, under a heading for each of two fields and for each kind that is no method of a field; what is
generic in the width is one piece of code for all fields. Rows that were worked out by hand stand first. Numbers are
hexadecimal without zeros before them, a list has commas between its numbers, and `-` is the empty list.

A line of tests/replayed_calls.txt is the name of a function without `bf_` and a word for each of its parameters: what is read, what
has to be written, and `before/after` of what is read and written.

With --check alone it reads the files back, and says whether they hold as many calls under each heading as are expected,
and answers in the form that it writes.
"""

import hashlib
import json
import pathlib
import re
import sys

import fields
import files
import polynomials

FOLDER = files.CRATES / "replay_calls"
LIBRARY = files.TOP / "tests/replayed_calls.txt"
FIELDS = ["t16", "g128"]
# How many rows are kept of the products by the root and of the elements that change their basis, and the lengths of the polynomials.
PRODUCTS_BY_ROOT = 6
CONVERTED = 4
POLYNOMIALS = [0, 1, 2, 20, 65, 128]
# The lengths of the slices, of each of which the last row is kept; the most values of the runs of low stages; how many elements
# of a linear map; and how many matrices, polynomials and elements of the byte field.
SLICES = [0, 1, 2, 5, 17, 257]
LOW_STAGES = 64
MAPPED = 40
BYTE_MAPS = 3
# The width of rows, and that of their parts.
ROW = 128
PART = 8
# The fields and the lengths of the streams.
STREAMED = ["t16", "g128", "p192"]
STREAMS = [0, 3, 5]
# Lines that are no calls, or whose operands the function does not take.
REFUSED = [
    "",
    "t9 bits",
    "t16 bits 1",
    "t16 mul_alpha",
    "t16 mul_alpha 1g",
    "t16 mul_alpha 10000",
    "t16 cantor_basis 10",
    "eval 1,2,3,4,5,6,7,8 100",
    "transpose 1,2,3,4,5,6",
    "interleave 8 1,2,3,4",
    "parts 1",
    "streams/t16 u16 1",
    "streams/t16 text 1 2",
    "streams/t16 bytes 10000",
    "streams/t16 bytes 1,,2",
]
# Rows that were worked out by hand, and what the calls have to give.
WORKED = [
    # Three elements of 16 bits as words.
    ("streams/t16 u64 102,304,506", "50603040102"),
    ("streams/t16 u32 102,304,506", "3040102,506"),
    # The byte field of AES: a product by 2, and the polynomial X^2.
    ("scaling_matrix 2", "2,4,8,10,20,40,80,1b"),
    ("eval 0,1,0,0,0,0,0,0 10", "1b"),
    ("to_matrix 0,1,0,0,0,0,0,0", "1,4,10,40,1b,6c,ab,9a"),
    # The identity matrix, and one that reads bit 0 alone.
    ("to_quadword 1,2,4,8,10,20,40,80", "102040810204080"),
    ("to_quadword 80,0,0,0,0,0,0,0", "1"),
    ("byte_lanes apply ff,fe,0,0,0,0,0,0,0,0,0,0,0,0,0,0 1", "80" + ",0" * 15),
]


def one_at(place, count=16):
    """A 1 at one place and 0 at the others."""
    return ",".join("1" if it == place else "0" for it in range(count))


def counted(first, end):
    """Numbers one after the other."""
    return ",".join(f"{it:x}" for it in range(first, end))


HIGHEST = "8" + "0" * 31
# Cantor vector 1 of the field of GHASH.
SECOND = "295ac0b1f4731af9676aac9fa4b20b08"
# The same of the C library.
WORKED_CALLS = [
    # Values at x of no coefficients, of one, of the highest alone, and of 128 times x^127; and of 1 + x^130 + x^599, where x^128 is 87 and
    # x^512 is x^28 + x^8 + x^4 + 1.
    "g128_evaluate - 2 0",
    "g128_evaluate 1234 2 1234",
    f"g128_evaluate {'0,' * 127}2 2 87",
    f"g128_evaluate {','.join(['8' + '0' * 31] * 128)} 2 1fc7",
    f"g128_evaluate 1,{'0,' * 129}1,{'0,' * 468}1 2 8000088800000000000000000021d",
    # Images of the tower's elements in the byte field of AES.
    "t8_to_r8 2,4,10,13 bc,c,35,88",
    # A matrix that reads bit 0 alone.
    "r8_linear_map ff,fe 80,0,0,0,0,0,0,0 80,0",
    # The highest power times x, its square, and the square root of x.
    f"g128_multiply {HIGHEST} 2 87",
    f"g128_square {HIGHEST} c0000000000000000000000000001067",
    "g128_square_root 2 24924924924924926db6db6db6db6da4",
    # Slices of the highest power times x.
    "g128_multiply_by - 2 -",
    f"g128_multiply_by {HIGHEST} 2 87",
    f"g128_multiply_by {','.join([HIGHEST] * 17)} 2 {','.join(['87'] * 17)}",
    "g128_butterfly_forward 5/5 3/6 0",
    "g128_butterfly_inverse 5/5 6/3 0",
    # Runs with a 1 at place 1 hold their places, and with one at place 2 half of them; no run holds nothing.
    f"g128_low_stages {one_at(1)}/{counted(0, 16)} 0,0,0,0 2,4,8,10,20 0",
    f"g128_low_stages {one_at(1)},{one_at(1)}/{counted(16, 48)} 0,0,0,0 2,4,8,10,20 1",
    f"g128_low_stages {one_at(2)}/{','.join(f'{it // 2:x}' for it in range(16))} 0,0,0,0 2,4,8,10,20 0",
    "g128_low_stages -/- 0,0,0,0 2,4,8,10,20 ffffffffffffffff",
    # Transforms: a constant, the polynomials of the subspaces of 16 and of 8 places, x with a shift of 2, and what a constant comes of.
    f"g128_transform {one_at(0)}/{','.join(['1'] * 16)} 0",
    f"g128_transform {one_at(16, 32)}/{','.join(['0'] * 16 + ['1'] * 16)} 0",
    f"g128_transform {one_at(8, 32)}/{','.join(['0'] * 8 + ['1'] * 8 + [SECOND] * 8 + [SECOND[:-1] + '9'] * 8)} 0",
    "g128_transform 0,1/2,3 2",
    f"g128_inverse_transform {','.join(['1'] * 32)}/{one_at(0, 32)} 0",
]
# How many calls stand under the heading of each field.
CALLS = {"t16": 18, "g128": 27}
HEAD = """\
# Calls of the library, and in stdout their answers by the Rust crate p3-binary-field 0.8.0; drawn from the seed {seed}.
# {written}
"""
LIBRARY_HEAD = """\
# Calls of the C library, and what they have to leave by the Rust crate p3-binary-field 0.8.0; drawn from the seed {seed}.
# {written}
"""


# What gives the calls under each heading after those of the fields, and how many they are, in the order of this file; and
# the same of the C library.
SECTIONS = {}
LIBRARY_SECTIONS = {}


def section(name, count, sections=SECTIONS):
    """Keeps a function that gives the calls under a heading."""

    def keep(calls):
        sections[name] = calls, count
        return calls

    return keep


def library_section(name, count):
    return section(name, count, LIBRARY_SECTIONS)


def number(text):
    """A number whose digits are given."""
    return f"{int(text, 16):x}"


def listed(texts):
    """A list of numbers whose digits are given."""
    return ",".join(map(number, texts)) or "-"


def of_field(rows, field):
    return [row for row in rows if row["field"] == field]


def places(bits):
    """The places of the Cantor vectors that are kept: each power of two, the places beside it, and the last."""
    powers = [1 << log for log in range(bits.bit_length())]
    return sorted({place for power in powers for place in (power - 1, power, power + 1) if place < bits})


def cantor_vector(row, field, digits):
    """A field's Cantor vector; a level of the tower has the vectors of the levels above."""
    return row["t128"][-digits:] if field == "t16" else row[field]


def constants(vectors, field):
    """The bits, the generator and the Cantor vectors of a field."""
    [row] = of_field(vectors["generators"], field)
    bits, digits = row["bits"], len(row["generator"])
    yield f"{field} bits", f"{bits:x}"
    yield f"{field} generator", number(row["generator"])
    for place in places(bits):
        vector = cantor_vector(vectors["cantor_basis"][place], field, digits)
        yield f"{field} cantor_basis {place:x}", number(vector)


def products(vectors, field):
    """Products by the root of the field's level."""
    for row in of_field(vectors["mul_alpha"], field)[-PRODUCTS_BY_ROOT:]:
        yield f"{field} mul_alpha {number(row['x'])}", number(row["y"])


def field_calls(vectors, field):
    return [*constants(vectors, field), *products(vectors, field)]


@library_section("values of polynomials at x", 6)
def values_at_x(vectors):
    """The values at x of polynomials over the field of GHASH."""
    for row in vectors["dot_powers_of_x"]:
        if len(row["values"]) in POLYNOMIALS:
            yield f"g128_evaluate {listed(row['values'])} 2 {number(row['sum'])}"


def conversions(vectors, name):
    """Elements of the tower beside their images: of some bits each way, and of elements that were drawn."""
    changes = vectors["change_of_basis"]
    to_polynomial, to_tower = changes[f"tower_to_{name}_columns"], changes[f"{name}_to_tower_columns"]
    bits, digits = len(to_tower), len(to_tower[0])
    rows = []
    for place in sorted({1, bits // 4, bits // 2, bits - 1}):
        bit = f"{1 << place:0{digits}x}"
        rows += [(bit, to_polynomial[place]), (to_tower[place], bit)]
    if name == "r8":
        images = changes["r8_images_of_all_t8"]
        drawn = [(f"{x:02x}", images[x]) for x in (0x00, 0x13, 0x7F, 0xFF)]
    else:
        slices = changes[f"{name}_from_tower_vec"]
        drawn = list(dict.fromkeys(zip(slices["in"], slices["out"], strict=True)))[:CONVERTED]
    return rows + drawn


@library_section("changes of basis", 6)
def changes_of_basis(vectors):
    for field in filter(lambda it: it.modulus, fields.FIELDS):
        elements, images = map(listed, zip(*conversions(vectors, field.name)))
        yield f"{field.partner.name}_to_{field.name} {elements} {images}"
        yield f"{field.name}_to_{field.partner.name} {images} {elements}"


def drawn_words(seed):
    """The words of splitmix64 from a seed."""
    mask = (1 << 64) - 1
    while True:
        seed = seed + 0x9E3779B97F4A7C15 & mask
        word = (seed ^ seed >> 30) * 0xBF58476D1CE4E5B9 & mask
        word = (word ^ word >> 27) * 0x94D049BB133111EB & mask
        yield word ^ word >> 31


def results_of(row):
    """Elements of two words each, the low one first, with their results of a linear map; the SHA-256 of all has to be the row's."""
    images = [int(image, 16) for image in row["images"]]
    words = drawn_words(int(row["input_seed"], 16))
    elements, results = [], []
    for _ in range(row["len"]):
        element = next(words) | next(words) << 64
        elements.append(f"{element:x}")
        results.append(f"{polynomials.image(images, element):032x}")
    if hashlib.sha256(bytes.fromhex("".join(results))).hexdigest() != row["sha256_of_be_bytes"]:
        sys.exit("the results of the linear map are others")
    return elements, results


@library_section("linear maps", 13)
def linear_maps(vectors):
    """A map of the bits of 128-bit words that was drawn, of whose results the vectors have the SHA-256, and maps of bytes."""
    row = vectors["try_apply_linear_map_into"][0]
    elements, results = results_of(row)
    yield f"g128_linear_map {listed(elements[:MAPPED])} {listed(row['images'])} {listed(results[:MAPPED])}"
    for row in vectors["byte_matrix"][-BYTE_MAPS:]:
        for applied in row["apply_slice"]:
            if len(applied["in"]) // 2 in SLICES + [40]:
                values, mapped = listed(digits_of(applied["in"])), listed(digits_of(applied["out"]))
                yield f"r8_linear_map {values} {listed(row['images'])} {mapped}"


@library_section("slices", 18)
def slices(vectors):
    """Products of slices by a scalar, and butterflies."""
    for length in SLICES:
        row = [row for row in vectors["mul_slice"] if len(row["in"]) == length][-1]
        yield f"g128_multiply_by {listed(row['in'])} {number(row['scalar'])} {listed(row['out'])}"
        for name in ("butterfly_forward", "butterfly_inverse"):
            row = [row for row in vectors[name] if len(row["lo"]) == length][-1]
            low, high = (f"{listed(row[it])}/{listed(row[it + '_out'])}" for it in ("lo", "hi"))
            yield f"g128_{name} {low} {high} {number(row['scalar'])}"


@library_section("low stages", 12)
def low_stages(vectors):
    """Runs of the low stages, by twiddles that were drawn and by those of Cantor points."""
    for row in vectors["low_stages_forward"]:
        if len(row["in"]) <= LOW_STAGES:
            values = f"{listed(row['in'])}/{listed(row['out'])}"
            yield f"g128_low_stages {values} {listed(row['shifts'][:4])} {listed(row['basis'])} {int(row['first_run']):x}"


def digits_of(text):
    """The bytes of a text of two digits each."""
    return [text[at : at + 2] for at in range(0, len(text), 2)]


@section("maps of bytes", 30)
def byte_maps(vectors):
    """Matrices of 8 by 8 bits, linearized polynomials, and the maps of elements of the byte field."""
    for row in vectors["byte_matrix"][-BYTE_MAPS:]:
        images = listed(row["images"])
        yield f"compose {images} {listed(row['first_images'])}", listed(row["compose_images"])
        yield f"to_quadword {images}", number(row["quadword"])
        yield f"from_quadword {number(row['from_quadword'])}", listed(row["from_quadword_images"])
    for row in vectors["linearized_poly8b"][-BYTE_MAPS:]:
        coefficients, values = listed(row["coefficients"]), digits_of(row["eval_all"])
        yield f"to_matrix {coefficients}", listed(row["matrix_images"])
        for x in (0x00, 0x01, 0x53, 0xFF):
            yield f"eval {coefficients} {x:x}", number(values[x])
    for row in vectors["rijndael8b"]["scaling"][-BYTE_MAPS:]:
        yield f"scaling_matrix {number(row['s'])}", listed(row["images"])
        yield f"frobenius_orbit {number(row['s'])}", listed(row["orbit"])


def words_of(number, bits):
    """The words of a row whose digits are given, of 64 bits or as many as it has, the lowest first."""
    width = min(bits, 64)
    return [f"{int(number, 16) >> width * i & (1 << width) - 1:x}" for i in range(bits // width)]


def rows_of(numbers, bits):
    return listed([word for number in numbers for word in words_of(number, bits)])


@section("rows of bits", 10)
def rows_of_bits(vectors):
    """Rows of bits transposed, interleaved by every block length, and cut into parts."""
    [row] = [row for row in vectors["packed_gf2"] if row["width"] == ROW]
    yield f"transpose {rows_of(row['transpose']['rows'], ROW)}", rows_of(row["transpose"]["out"], ROW)
    for pair in row["interleave"]:
        log = pair["block_len"].bit_length() - 1
        call = f"interleave {log:x} {rows_of([pair['left'], pair['right']], ROW)}"
        yield call, rows_of([pair["first"], pair["second"]], ROW)
    for row in vectors["divisible"]:
        if (row["wide"], row["narrow"]) == (ROW, PART):
            yield f"parts {rows_of([row['x']], ROW)}", rows_of(row["parts"], PART)


@section("packings", 9)
def packings(vectors):
    """Sixteen bytes of AES lane by lane."""
    for row in vectors["packed_rijndael8b"]["cases"][-BYTE_MAPS:]:
        x, y = (listed(digits_of(row[name])) for name in "xy")
        yield f"byte_lanes mul {x} {y}", listed(digits_of(row["mul"]))
        yield f"byte_lanes invert_or_zero {x}", listed(digits_of(row["invert_or_zero"]))
        yield f"byte_lanes apply {x} {number(row['matrix_quadword'])}", listed(digits_of(row["apply"]))


def numbers_of(field, texts):
    """The numbers of elements whose digits are given: three for one of the cubic extension, and else one."""
    return [text[at : at + 16] for text in texts for at in range(0, 48, 16)] if field == "p192" else texts


@section("streams", 33)
def streams(vectors):
    """Elements as bytes and words, one after the other, and the text of the first of them."""
    rows = [row for row in vectors["streams"] if row["field"] in STREAMED and len(row["in"]) in STREAMS]
    for row in rows:
        call = f"streams/{row['field']}"
        elements = listed(numbers_of(row["field"], row["in"]))
        yield f"{call} bytes {elements}", listed(digits_of(row["bytes"]))
        for kind in ("u32", "u64"):
            yield f"{call} {kind} {elements}", listed(row[kind])
        for x, text in list(zip(row["in"], row["display"]))[:1]:
            yield f"{call} text {listed(numbers_of(row['field'], [x]))}", listed([f"{ord(letter):x}" for letter in text])


@section("no calls", 15)
def refused(_):
    """Lines that are answered by a word."""
    return [(line, "error") for line in REFUSED]


def chosen(vectors):
    """The calls and their answers under each heading."""
    of_fields = {field: field_calls(vectors, field) for field in FIELDS}
    others = {name: list(calls(vectors)) for name, (calls, _) in SECTIONS.items()}
    return {"worked rows": WORKED} | of_fields | others


def texts_of(sections, seed):
    """The two files. A line that begins with `#` stands in both."""
    calls = answers = HEAD.format(seed=seed, written=files.generated("make_vectors.py"))
    for name, rows in sections.items():
        heading = f"# {name}\n"
        calls += heading + "".join(f"{call}\n" for call, _ in rows)
        answers += heading + "".join(f"{answer}\n" for _, answer in rows)
    return calls, answers


def chosen_of_library(vectors):
    """The calls of the C library under each heading."""
    return {"worked rows": WORKED_CALLS} | {name: list(calls(vectors)) for name, (calls, _) in LIBRARY_SECTIONS.items()}


def library_text(sections, seed):
    lines = "".join(f"# {name}\n" + "".join(f"{call}\n" for call in calls) for name, calls in sections.items())
    return LIBRARY_HEAD.format(seed=seed, written=files.generated("make_vectors.py")) + lines


def read(calls, answers):
    """The calls and their answers under each heading of two files."""
    sections = {}
    for call, answer in zip(calls.split("\n")[2:-1], answers.split("\n")[2:-1], strict=True):
        if call.startswith("# "):
            rows = sections.setdefault(call[2:], [])
        else:
            rows.append((call, answer))
    return sections


def read_library(text):
    """The calls of the C library under each heading of its file."""
    return {name: [call for call, _ in rows] for name, rows in read(text, text).items()}


def seed_of(text):
    return re.search(r"drawn from the seed (\d+)", text).group(1)


def counts_of(sections):
    return {name: count for name, (_, count) in sections.items()}


def check():
    calls, answers = ((FOLDER / name).read_text(encoding="ascii") for name in ("stdin", "stdout"))
    sections = read(calls, answers)
    if texts_of(sections, seed_of(calls)) != (calls, answers):
        sys.exit("stdin and stdout are not in the form that this script writes")
    if sections.pop("worked rows") != WORKED:
        sys.exit("the worked rows are others")
    if {name: len(rows) for name, rows in sections.items()} != CALLS | counts_of(SECTIONS):
        sys.exit("there are not as many calls under each heading as are kept")
    for name, rows in sections.items():
        form = "error" if name == "no calls" else "-|[0-9a-f]+(,[0-9a-f]+)*"
        if not all(re.fullmatch(form, answer) for _, answer in rows):
            sys.exit(f"an answer under {name} has another form")
    check_library(LIBRARY.read_text(encoding="ascii"))


def check_library(text):
    sections = read_library(text)
    if library_text(sections, seed_of(text)) != text:
        sys.exit("the calls of the C library are not in the form that this script writes")
    if sections.pop("worked rows") != WORKED_CALLS:
        sys.exit("the worked rows of the C library are others")
    if {name: len(calls) for name, calls in sections.items()} != counts_of(LIBRARY_SECTIONS):
        sys.exit("there are not as many calls of the C library under each heading as are kept")
    listed_form = "(-|[0-9a-f]+(,[0-9a-f]+)*)"
    if not all(re.fullmatch(rf"[0-9a-z_]+( {listed_form}(/{listed_form})?)+", call) for calls in sections.values() for call in calls):
        sys.exit("a call of the C library has another form")


def main():
    if files.is_check():
        return check()
    [path] = sys.argv[1:]
    vectors = json.loads(pathlib.Path(path).read_text(encoding="ascii"))
    seed = vectors["seed"]
    calls, answers = texts_of(chosen(vectors), seed)
    (FOLDER / "stdin").write_text(calls, encoding="ascii")
    (FOLDER / "stdout").write_text(answers, encoding="ascii")
    LIBRARY.write_text(library_text(chosen_of_library(vectors), seed), encoding="ascii")


if __name__ == "__main__":
    main()
