"""Calls of every function of the C library, with the statuses and the results that the definitions give.

Inputs are drawn from a fixed seed. Arrays are 257 elements long, and a call is made at each length from 0 to 257, which takes a
definition once for each element. Where a definition is dear, the elements of an array are drawn from 24 that come again.
"""

import dataclasses
import functools
import itertools
import pathlib
import random

import correcting
import definitions
import embeddings
import field_correcting
import published
from called import ARRAYS, FUNCTIONS, case, refused, with_argument
from definitions import FIELDS

LONGEST = 257
REPLAYED = pathlib.Path(__file__).resolve().parent / "replayed_calls.txt"
UNWRITTEN = published.UNWRITTEN


def drawn(field, draw, count, pool=None):
    """Elements of a field, with 0, 1 and the largest among them; all of a pool where one is asked for."""
    special = [0, 1, (1 << field.bits) - 1]
    if pool:
        few = special + [draw.getrandbits(field.bits) for _ in range(pool - 3)]
        return [draw.choice(few) for _ in range(count)]
    return [draw.choice(special) if draw.random() < 0.05 else draw.getrandbits(field.bits) for _ in range(count)]


def field_cases(field, draw):
    """The functions that every field has."""
    name = lambda it: f"{field.name}_{it}"
    left, right, few = drawn(field, draw, LONGEST), drawn(field, draw, LONGEST), drawn(field, draw, LONGEST, 24)
    products = [field.multiply(a, b) for a, b in zip(left, right)]
    yield case(name("add"), left, right, [a ^ b for a, b in zip(left, right)], each=LONGEST)
    yield case(name("multiply"), left, right, products, each=LONGEST)
    yield case(name("add_in_place"), (left, [a ^ b for a, b in zip(left, right)]), right, each=LONGEST)
    yield case(name("multiply_in_place"), (left, products), right, each=LONGEST)
    for scalar in {0, 1, draw.getrandbits(field.bits), (1 << field.bits) - 1}:
        scaled = [field.multiply(scalar, it) for it in few]
        yield case(name("multiply_by"), few, scalar, scaled, each=LONGEST)
        yield case(name("multiply_by_in_place"), (few, scaled), scalar, each=LONGEST)
        yield case(name("add_scaled"), (left, [a ^ b for a, b in zip(left, scaled)]), scalar, few, each=LONGEST)
    squares, roots = ([operation(it) for it in few] for operation in (field.square, field.square_root))
    yield case(name("square"), few, squares, each=LONGEST)
    yield case(name("square_in_place"), (few, squares), each=LONGEST)
    nonzero = [it or 1 for it in few]
    for values in (few, nonzero, [0] * LONGEST):
        inverses = [field.inverse(it) for it in values]
        yield case(name("inverse"), values, inverses, each=LONGEST)
        yield case(name("batch_inverse"), values, inverses, each=LONGEST)
        yield case(name("inverse_in_place"), (values, inverses), each=LONGEST)
    yield case(name("square_root"), few, roots, each=LONGEST)
    yield case(name("square_root_in_place"), (few, roots), each=LONGEST)
    for exponent in (0, 1, 2, 5, (1 << 64) - 1, draw.getrandbits(64)):
        values = few if exponent < 6 else few[:9]
        powers = [field.power(it, exponent) for it in values]
        yield case(name("power"), values, exponent, powers, each=len(values))
        yield case(name("power_in_place"), (values, powers), exponent, each=len(values))
    # The products of the first n elements, of which none is 0 before the end.
    values = nonzero[: LONGEST - 1] + [0]
    yield case(name("product"), values, definitions.running(values, field.multiply, 1), each=LONGEST)
    yield case(name("dot_product"), left, right, definitions.running(products, lambda a, b: a ^ b, 0), each=LONGEST)
    for count in (0, 1, 2, 3):
        yield evaluated(field, left[:count], few)
    yield evaluated(field, left[:17], few[:20])
    yield evaluated(field, left, few[:2])
    for count in (512, 514):
        yield evaluated(field, (left + right)[:count], few[:2])
    assert field.has_full_order(field.generator)
    yield case(name("generator"), [field.generator])


def evaluated(field, coefficients, points):
    """The values of a polynomial, by Horner's rule."""
    values = []
    known = {}
    for point in points:
        if point not in known:
            known[point] = 0
            for it in reversed(coefficients):
                known[point] = field.multiply(known[point], point) ^ it
        values.append(known[point])
    return case(f"{field.name}_evaluate", coefficients, points, values, each=len(points), whole=("coefficients",))


def matrix_cases(field, draw, given=()):
    """Matrices of every shape, with rows that are short and long, of every rank, with an inverse and without, and equations with a solution and
    without. A call takes what is given first."""
    made_case = lambda it, *values: case(f"{field.name}_matrix_{it}", *given, *values)
    for rows, inner, columns in ((2, 3, 4), (0, 0, 0), (1, 1, 1), (3, 0, 2), (0, 3, 2), (2, 3, 0), (5, 1, 2), (1, 4, 1), (3, 5, 40), (2, 33, 33)):
        left, right = drawn(field, draw, rows * inner), drawn(field, draw, inner * columns, 24)
        product = field.matrix_product(left, right, rows, inner, columns)
        yield made_case("multiply", left, right, product, rows, inner, columns)
    for rows, columns, most in ((3, 4, 3), (0, 0, 0), (0, 3, 0), (3, 0, 0), (1, 1, 1), (1, 1, 0), (4, 4, 2), (5, 3, 3), (3, 5, 1), (4, 40, 3), (2, 33, 2)):
        # The product of a matrix of so many columns and one of so many rows has no higher rank.
        matrix = field.matrix_product(drawn(field, draw, rows * most), drawn(field, draw, most * columns), rows, most, columns)
        form, pivots = field.echelon(matrix, rows, columns)
        rank = len(pivots)
        yield made_case("row_reduce", (matrix, form), rows, columns, pivots + [UNWRITTEN] * (rows - rank), [rank])
        yield made_case("rank", matrix, rows, columns, rows * columns, rows, [rank])
    for size, most in ((3, 3), (0, 0), (1, 1), (1, 0), (2, 2), (2, 1), (4, 4), (4, 3), (5, 5), (17, 17)):
        matrix = field.matrix_product(drawn(field, draw, size * most), drawn(field, draw, most * size), size, most, size)
        if most == size:
            matrix = invertible(field, draw, size)
        inverse = field.matrix_inverse(matrix, size)
        if size < 6:
            assert (inverse is None) == (field.determinant(matrix, size) == 0)
            yield made_case("determinant", matrix, size, size * size, [field.determinant(matrix, size)])
        made = made_case("inverse", matrix, size, inverse or [0] * (size * size), 2 * size * size, size)
        yield refused(made, "BF_UNSOLVABLE") if inverse is None else made
    for rows, columns, most in ((3, 3, 3), (0, 0, 0), (0, 2, 0), (1, 1, 1), (2, 4, 2), (4, 2, 2), (4, 4, 2), (3, 33, 2), (2, 0, 0)):
        matrix = field.matrix_product(drawn(field, draw, rows * most), drawn(field, draw, most * columns), rows, most, columns)
        solvable = field.matrix_product(matrix, drawn(field, draw, columns), rows, columns, 1)
        for right in (solvable, [it ^ 1 for it in solvable]):
            found = field.solution(matrix, right, rows, columns)
            made = made_case("solve", matrix, rows, columns, right, found or [0] * columns, rows * (columns + 1), rows)
            yield refused(made, "BF_UNSOLVABLE") if found is None else made


    # Numbers of entries that 64 bits do not hold.
    huge, most = 1 << 32, (1 << 64) - 1
    for it in (
        made_case("multiply", [], [], [], huge, huge, huge), made_case("multiply", [], [], [], most, most, most),
        made_case("row_reduce", ([], []), huge, huge, [], [0]), made_case("rank", [], 0, huge, 0, 1, [0]),
        made_case("determinant", [], huge, 0, [0]), made_case("inverse", [], huge, [], 0, 0), made_case("inverse", [], 1 << 63, [], 0, 0),
        made_case("solve", [], 0, most, [], [], 0, 0), made_case("solve", [], most, most, [], [], 0, 0),
    ):
        yield refused(it, "BF_LENGTH")


def invertible(field, draw, size):
    """A matrix with an inverse, in which rows have to be moved: rows of a triangular one in another order, with sums of others added."""
    lower = [0 if j > i else 1 if i == j else draw.getrandbits(field.bits) for i in range(size) for j in range(size)]
    upper = [0 if j < i else draw.getrandbits(field.bits) or 1 if i == j else draw.getrandbits(field.bits) for i in range(size) for j in range(size)]
    product = field.matrix_product(lower, upper, size, size, size)
    return [it for i in reversed(range(size)) for it in product[i * size : (i + 1) * size]]


def packed(matrix, rows, columns):
    """The words of 64 bits of a matrix over GF(2), row after row."""
    words = []
    for i in range(rows):
        row = sum(bit << j for j, bit in enumerate(matrix[i * columns : (i + 1) * columns]))
        words += [row >> (64 * at) & (1 << 64) - 1 for at in range(-(-columns // 64))]
    return words


# Fields that a caller chooses: a degree, and the other terms of a modulus.
CHOSEN = [(1, 0), (1, 1), (2, 3), (3, 5), (8, 0x1D), (8, 0x1B), (16, 0x2D), (61, 0x27), (64, 0x1B), (127, 3), (128, 0x87)]


def chosen_cases(draw):
    """The functions over a field that the caller chooses, and what is no field."""
    for degree, tail in CHOSEN:
        modulus, size = 1 << degree | tail, 9
        words = definitions.field_words(degree, tail)
        yield case("field_init", [words], degree, tail)
        few = [0, 1, (1 << degree) - 1] + [draw.getrandbits(degree) for _ in range(size - 3)]
        left, right = few, [draw.choice(few) for _ in few]
        times = lambda a, b: definitions.chosen_product(modulus, a, b)
        yield case("field_add", words, left, right, [a ^ b for a, b in zip(left, right)], each=size)
        yield case("field_multiply", words, left, right, [times(a, b) for a, b in zip(left, right)], each=size)
        many, others = ([draw.getrandbits(degree) for _ in range(70)] for _ in range(2))
        yield case("field_multiply", words, many, others, [times(a, b) for a, b in zip(many, others)], each=70)
        for scalar in (1, few[2], few[-1]):
            yield case("field_multiply_by", words, left, scalar, [times(a, scalar) for a in left], each=size)
        yield case("field_square", words, left, [times(a, a) for a in left], each=size)
        power = lambda a, exponent: definitions.chosen_power(modulus, a, exponent)
        yield case("field_inverse", words, left, [power(a, (1 << degree) - 2) if a else 0 for a in left], each=size)
        yield case("field_square_root", words, left, [power(a, 1 << degree - 1) for a in left], each=size)
        for exponent in (0, 1, 5, (1 << 64) - 1):
            yield case("field_power", words, left, exponent, [power(a, exponent) for a in left], each=size)
        yield case("field_trace", words, left, [definitions.total(power(a, 1 << i) for i in range(degree)) for a in left], each=size)
        quotients = [times(a, power(b, (1 << degree) - 2)) if b else 0 for a, b in zip(left, right)]
        yield case("field_divide", words, left, right, quotients, each=size)
        is_primitive = lambda a: a and all(power(a, ((1 << degree) - 1) // p) != 1 for p in definitions.group_primes(degree))
        generator = next(it for it in range(1 << degree) if is_primitive(it))
        yield case("field_primitive_element", words, [generator])
        exponents = [it % ((1 << degree) - 1) for it in (0, 1, 2, 5, 77, 300)]
        yield case("field_logarithm", words, [power(generator, it) for it in exponents], generator, exponents, each=len(exponents))
        yield case("field_logarithm", words, [0, 1], 0, [1, 0], each=2)
        yield refused(case("field_logarithm", words, [1, 0], generator, [0, 0]), "BF_UNSOLVABLE")
        yield from chosen_element_cases(words, modulus, left)
        dot = lambda a, b: definitions.total(times(x, y) for x, y in zip(a, b))
        value = lambda coefficients, x: definitions.total(times(c, power(x, i)) for i, c in enumerate(coefficients))
        for count in (0, 1, size):
            yield case("field_dot_product", words, left[:count], right[:count], [dot(left[:count], right[:count])])
            yield case("field_evaluate", words, left[:count], right, [value(left[:count], x) for x in right])
        # So many coefficients go by blocks of 128.
        by_horner = lambda coefficients, x: functools.reduce(lambda sum, it: times(sum, x) ^ it, reversed(coefficients), 0)
        for count in (128, 300):
            coefficients = [draw.getrandbits(degree) for _ in range(count)]
            yield case("field_evaluate", words, coefficients, few[:5], [by_horner(coefficients, x) for x in few[:5]])
        yield from matrix_cases(definitions.Modulo(degree, modulus), draw, [words])
        if degree < 128:
            yield from matrix_refusals(words, 1 << degree, "BF_NOT_AN_ELEMENT")
            for at in (0, size - 1):
                wrong = [1 << degree if it == at else a for it, a in enumerate(left)]
                yield refused(case("field_multiply", words, wrong, right, [0] * size), "BF_NOT_AN_ELEMENT")
                yield refused(case("field_multiply", words, right, wrong, [0] * size), "BF_NOT_AN_ELEMENT")
                yield refused(case("field_inverse", words, wrong, [0] * size), "BF_NOT_AN_ELEMENT")
                for name in ("field_divide", "field_evaluate"):
                    yield refused(case(name, words, wrong, right, [0] * size), "BF_NOT_AN_ELEMENT")
                    yield refused(case(name, words, right, wrong, [0] * size), "BF_NOT_AN_ELEMENT")
                yield refused(case("field_dot_product", words, wrong, right, [0]), "BF_NOT_AN_ELEMENT")
                yield refused(case("field_dot_product", words, right, wrong, [0]), "BF_NOT_AN_ELEMENT")
            yield refused(case("field_multiply_by", words, left, 1 << degree, [0] * size), "BF_NOT_AN_ELEMENT")
            yield refused(case("field_logarithm", words, [1], 1 << degree, [0]), "BF_NOT_AN_ELEMENT")
            yield refused(case("field_logarithm", words, [1, 1 << degree], 1, [0, 0]), "BF_NOT_AN_ELEMENT")
    for degree, tail in ((0, 0), (0, 1), (129, 3), ((1 << 64) - 1, 1), (4, 0b101), (8, 0x11B), (8, 1), (8, 0), (2, 0), (128, 0), (64, 1 << 64 | 0x1B)):
        yield refused(case("field_init", [0], degree, tail), "BF_REDUCIBLE")
    yield from matrix_refusals(definitions.field_words(8, 1), 1, "BF_REDUCIBLE")
    reducible = definitions.field_words(8, 1)
    yield refused(case("field_order", reducible, [1], [0]), "BF_REDUCIBLE")
    yield refused(case("field_trace_to", reducible, [1], 3, [0]), "BF_REDUCIBLE")
    yield refused(case("field_norm_to", reducible, [1], 3, [0]), "BF_REDUCIBLE")
    yield refused(case("field_minimal_polynomial", reducible, 1, [0], [0]), "BF_REDUCIBLE")
    yield from modulus_cases()
    for name, values, each, status in embeddings.rows(draw):
        yield refused(case(name, *values), status) if status else case(name, *values, each=each)


def chosen_element_cases(words, modulus, values):
    """Orders, traces and norms over subfields and minimal polynomials of elements of a field that the caller chooses."""
    degree, size = modulus.bit_length() - 1, len(values)
    times = lambda a, b: definitions.chosen_product(modulus, a, b)
    power = lambda a, exponent: definitions.chosen_power(modulus, a, exponent)
    yield case("field_order", words, values, [order_of(a, power, degree) for a in values], each=size)
    squared = lambda a: itertools.accumulate(range(degree - 1), lambda it, _: times(it, it), initial=a)
    all_conjugates = [list(squared(a)) for a in values]
    for over in (it for it in range(1, degree + 1) if degree % it == 0):
        conjugates = [it[::over] for it in all_conjugates]
        yield case("field_trace_to", words, values, over, [definitions.total(it) for it in conjugates], each=size)
        yield case("field_norm_to", words, values, over, [functools.reduce(times, it, 1) for it in conjugates], each=size)
        # The last is an element of the subfield.
        for element in {*values[: 4 if over == 1 else 0], definitions.total(conjugates[-1])}:
            found = definitions.minimal_polynomial(modulus, element)
            least = found.bit_length() - 1
            yield case("field_minimal_polynomial", words, element, [least], [found ^ 1 << least])
    if degree < 128:
        wrong = [1 << degree if it == size - 1 else a for it, a in enumerate(values)]
        yield refused(case("field_order", words, wrong, [0] * size), "BF_NOT_AN_ELEMENT")
        yield refused(case("field_trace_to", words, wrong, 1, [0] * size), "BF_NOT_AN_ELEMENT")
        yield refused(case("field_norm_to", words, wrong, 1, [0] * size), "BF_NOT_AN_ELEMENT")
        yield refused(case("field_minimal_polynomial", words, 1 << degree, [0], [0]), "BF_NOT_AN_ELEMENT")
    for over in (0, 7 if degree % 7 else 5, degree + 1, 2 * degree, (1 << 32) + degree, 1 << 32):
        for name in ("field_trace_to", "field_norm_to"):
            yield refused(case(name, words, values, over, [0] * size), "BF_UNSOLVABLE")


def order_of(a, power, degree):
    """The order of an element, by the primes of that of the group, and 0 of 0."""
    if not a:
        return 0
    order = (1 << degree) - 1
    for prime in definitions.group_primes(degree):
        while order % prime == 0 and power(a, order // prime) == 1:
            order //= prime
    return order


def modulus_cases():
    """Which irreducible and primitive polynomials come next."""
    for degree, tail, irreducible, primitive in (
        (1, 0, 0, 1), (1, 1, 1, 1), (2, 0, 3, 3), (8, 0, 0x1B, 0x1D), (8, 0x1C, 0x1D, 0x1D), (8, 0x1E, 0x2B, 0x2B), (64, 0, 0x1B, 0x1B),
        (128, 0, 0x87, 0x87),
    ):
        yield case("field_next_irreducible", degree, tail, [irreducible])
        yield case("field_next_primitive", degree, tail, [primitive])
    for degree, tail in ((0, 0), (0, 1), (129, 3), ((1 << 32) + 8, 0x1B), ((1 << 64) - 1, 0), (8, 0x100), (1, 2), (2, 4)):
        yield refused(case("field_next_irreducible", degree, tail, [0]), "BF_UNSOLVABLE")
        yield refused(case("field_next_primitive", degree, tail, [0]), "BF_UNSOLVABLE")


def matrix_refusals(words, entry, status):
    """Calls over matrices of one entry over a field that a caller chooses, which are refused."""
    for name, *values in (
        ("multiply", [entry], [1], [0], 1, 1, 1), ("multiply", [1], [entry], [0], 1, 1, 1), ("row_reduce", ([entry], [entry]), 1, 1, [UNWRITTEN], [0]),
        ("rank", [entry], 1, 1, 1, 1, [0]), ("determinant", [entry], 1, 1, [0]), ("inverse", [entry], 1, [0], 2, 1),
        ("solve", [entry], 1, 1, [1], [0], 2, 1), ("solve", [1], 1, 1, [entry], [0], 2, 1),
    ):
        yield refused(case(f"field_matrix_{name}", words, *values), status)


def bit_matrix_cases(draw):
    """Matrices over GF(2) whose rows are packed, of every shape: rows that end in a word and at its end, and bits behind them."""
    field = FIELDS["gf2"]
    bits = lambda count: [draw.getrandbits(1) for _ in range(count)]
    for rows, inner, columns in ((3, 70, 130), (0, 0, 0), (0, 65, 3), (2, 0, 65), (2, 3, 0), (1, 1, 1), (5, 64, 64), (9, 128, 63), (70, 20, 600)):
        left, right = bits(rows * inner), bits(inner * columns)
        product = field.matrix_product(left, right, rows, inner, columns)
        made = packed(left, rows, inner), packed(right, inner, columns), packed(product, rows, columns)
        yield case("bit_matrix_multiply", *made, rows, inner, columns)
        for at, width in enumerate((inner, columns)):
            if made[at] and width % 64:
                behind = [*made[at][:-1], made[at][-1] | 1 << 63]
                yield refused(case("bit_matrix_multiply", *made[:at], behind, *made[at + 1:], rows, inner, columns), "BF_NOT_AN_ELEMENT")
    for rows, columns, most in ((3, 130, 3), (0, 0, 0), (0, 70, 0), (3, 0, 0), (1, 1, 1), (1, 1, 0), (64, 64, 60), (70, 65, 40), (5, 200, 3), (130, 7, 5)):
        matrix = field.matrix_product(bits(rows * most), bits(most * columns), rows, most, columns)
        words, turned = packed(matrix, rows, columns), [matrix[i * columns + j] for j in range(columns) for i in range(rows)]
        form, pivots = field.echelon(matrix, rows, columns)
        rank, transposed = len(pivots), packed(turned, columns, rows)
        form = packed(form, rows, columns)
        yield case("bit_matrix_transpose", words, transposed, rows, columns)
        yield case("bit_matrix_row_reduce", (words, form), rows, columns, pivots + [UNWRITTEN] * (rows - rank), [rank])
        yield case("bit_matrix_rank", words, rows, columns, len(words), rows, [rank])
        if words and columns % 64:
            behind = [*words[:-1], words[-1] | 1 << columns % 64]
            yield refused(case("bit_matrix_transpose", behind, transposed, rows, columns), "BF_NOT_AN_ELEMENT")
            yield refused(case("bit_matrix_row_reduce", (behind, behind), rows, columns, [0] * rows, [0]), "BF_NOT_AN_ELEMENT")
            yield refused(case("bit_matrix_rank", behind, rows, columns, len(words), rows, [0]), "BF_NOT_AN_ELEMENT")


def basis_cases(draw):
    """Changes of basis and linear maps."""
    for polynomials, tower in ((it.name, it.partner.name) for it in definitions.fields.FIELDS if it.modulus):
        field = FIELDS[tower]
        for inverted, (a, b) in enumerate([(tower, polynomials), (polynomials, tower)]):
            images = definitions.columns(field.bits, inverted)
            values = drawn(field, draw, LONGEST)
            yield case(f"{a}_to_{b}", values, [definitions.linear_map(images, it) for it in values], each=LONGEST)
    for field in (FIELDS["r8"], FIELDS["g128"]):
        images, values = drawn(field, draw, field.bits), drawn(field, draw, LONGEST)
        mapped = [definitions.linear_map(images, it) for it in values]
        yield case(f"{field.name}_linear_map", values, images, mapped, each=LONGEST, whole=("images",))
    # The longest slices go by tables.
    field = FIELDS["g128"]
    images, values = drawn(field, draw, 128), drawn(field, draw, 4200)
    yield case("g128_linear_map", values, images, [definitions.linear_map(images, it) for it in values])


def stage_cases(draw):
    """Stages of transforms, and whole transforms."""
    field = FIELDS["g128"]
    for scalar in (0, 1, draw.getrandbits(128)):
        low, high = drawn(field, draw, LONGEST), drawn(field, draw, LONGEST, 24)
        low_after = [a ^ field.multiply(scalar, b) for a, b in zip(low, high)]
        after = low_after, [a ^ b for a, b in zip(high, low_after)]
        yield case("g128_butterfly_forward", (low, after[0]), (high, after[1]), scalar, each=LONGEST)
        yield case("g128_butterfly_inverse", (after[0], low), (after[1], high), scalar, each=LONGEST)
    for runs, count, first in ((0, 3, 1 << 63), (1, 3, 0), (1, 5, 3), (2, 6, 5), (3, 70, (1 << 64) - 3), (4, 5, 0)):
        values, shifts, basis = (drawn(field, draw, it) for it in (16 * runs, 4, count))
        after = definitions.low_stages(values, shifts, basis, first) if runs else []
        yield case("g128_low_stages", (values, after), shifts, basis, first)
    for name in ("g128", *(it.name for it in FIELDS.values() if it.row.is_transformed)):
        field = FIELDS[name]
        for m in range(8):
            # Shifts of no bits, and of 8, 16, 32, .. bits.
            shift = 0 if m % 2 else draw.getrandbits(min(field.bits, 8 << m // 2)) if field.row.is_transformed else draw.getrandbits(128)
            coefficients = drawn(field, draw, 1 << m)
            values = definitions.transform(coefficients, shift, field)
            yield case(f"{name}_transform", (coefficients, values), shift)
            yield case(f"{name}_inverse_transform", (values, coefficients), shift)


def long_cases(draw):
    """Products by a scalar of slices that go by tables in memory, and of the longest ones that do not."""
    field = FIELDS["g128"]
    scalar = draw.getrandbits(128)
    for length in (399, 400, 700):
        low, high = drawn(field, draw, length), drawn(field, draw, length, 24)
        scaled = [field.multiply(scalar, it) for it in high]
        low_after = [a ^ b for a, b in zip(low, scaled)]
        high_after = [a ^ b for a, b in zip(high, low_after)]
        yield case("g128_multiply_by", high, scalar, scaled)
        yield case("g128_add_scaled", (low, low_after), scalar, high)
        yield case("g128_butterfly_forward", (low, low_after), (high, high_after), scalar)
        yield case("g128_butterfly_inverse", (low_after, low), (high_after, high), scalar)
    # More runs than a block has.
    values, shifts, basis = (drawn(field, draw, it) for it in (16 * 9, 4, 70))
    yield case("g128_low_stages", (values, definitions.low_stages(values, shifts, basis, (1 << 64) - 4)), shifts, basis, (1 << 64) - 4)


def tag_cases(draw):
    """Hashes of tags, with the examples of their standards."""
    h = bytes.fromhex("66e94bd4ef8a2c3b884cfa59ca342b2e")
    assert definitions.gcm_ghash(h, b"", bytes.fromhex("0388dace60b6a392f328c2b971b2fe78")).hex() == "f38cbb1ad69223dcc3457ae5b6b0f885"
    key, message = bytes.fromhex("25629347589242761d31f826ba4b757b"), "4f4f95668c83dfb6401762bb2d01a262d1a24ddd2721d006bbe45f20d3c9f362"
    assert definitions.polyval(key, bytes.fromhex(message)).hex() == "f7a3b47b846119fae5b7866cf5e5b77e"
    # The last ones go by interleaved sums: one turn has 512 bytes.
    for length in (*range(LONGEST + 1), 1023, 1024, 1025, 1616, 2117):
        key, message = draw.randbytes(16), draw.randbytes(length)
        yield case("tag_ghash", key, message, list(definitions.ghash(key, message)))
        yield case("tag_polyval", key, message, list(definitions.polyval(key, message)))
        yield from piece_cases(draw, key, message)
        if length % 5 == 0 or length < 34:
            other = draw.randbytes(draw.randrange(40))
            for pair in ((message, other), (other, message)):
                yield case("tag_gcm_ghash", key, *pair, list(definitions.gcm_ghash(key, *pair)))
        yield case("tags_are_equal", message, message, [1])
        yield case("tags_are_equal", message, message + b"\0", [0])
        if length:
            changed = bytearray(message)
            changed[draw.randrange(length)] ^= 1 << draw.randrange(8)
            yield case("tags_are_equal", message, changed, [0])
            yield case("tags_are_equal", message, message[:-1], [0])


def piece_cases(draw, key, message):
    """The hashes of a message in pieces, cut anywhere: each call by itself, so that its state is looked at before and behind it."""
    cut = draw.randrange(len(message) + 1)
    first = message[:cut]
    padded = first + bytes(-cut % 16)
    for name in ("ghash", "polyval"):
        state, hashed = getattr(definitions, f"{name}_state"), getattr(definitions, name)
        empty, begun = [state(key, b"")], [state(key, first)]
        yield case(f"tag_{name}_init", empty, key)
        yield case(f"tag_{name}_update", (begun, [state(key, message)]), message[cut:])
        yield case(f"tag_{name}_pad", (begun, [state(key, padded)]))
        yield case(f"tag_{name}_final", (begun, empty), list(hashed(key, first)))
    sizes = [draw.getrandbits(draw.randrange(62)) for _ in range(2)]
    with_lengths = padded + definitions.lengths(*sizes)
    ends = [definitions.ghash_state(key, first)], [definitions.ghash_state(key, b"")]
    yield case("tag_gcm_ghash_final", ends, *sizes, list(definitions.ghash(key, with_lengths)))


def code_cases(draw):
    """Reed-Solomon codes, with shards lost."""
    for data, parity, size in ((1, 1, 1), (2, 1, 5), (4, 2, 17), (10, 4, 33), (3, 9, 257), (17, 3, 2), (100, 30, 3), (255, 1, 1), (1, 255, 2)):
        total = data + parity
        content = draw.randbytes(data * size)
        shards = list(definitions.encoded(data, parity, content))
        raw = list(content) + list(draw.randbytes(parity * size))
        yield case("rs_encode", data, parity, (raw, shards))
        yield case("rs_verify", data, parity, shards, [1])
        wrong = list(shards)
        wrong[draw.randrange(len(wrong))] ^= 1 << draw.randrange(8)
        yield case("rs_verify", data, parity, wrong, [0])
        tables = list(definitions.parity_tables(data, parity))
        yield case("rs_tables_length", data, parity, [len(tables)])
        yield case("rs_prepare", data, parity, tables)
        yield case("rs_encode_prepared", data, parity, tables, (raw, shards))
        yield case("rs_verify_prepared", data, parity, tables, shards, [1])
        yield case("rs_verify_prepared", data, parity, tables, wrong, [0])
        own, row, sums = draw.randrange(data), draw.randrange(parity), list(draw.randbytes(size))
        added = definitions.added_shard(data, own, row, content[own * size : own * size + size], sums)
        yield case("rs_add_shard", data, parity, tables, own, row, list(content[own * size : own * size + size]), (sums, added))
        for other, beyond in ((data, row), (own, parity), ((1 << 64) - 1, row)):
            yield refused(case("rs_add_shard", data, parity, tables, other, beyond, sums, (sums, sums)), "BF_LENGTH")
        factor = draw.choice((0, 1, 2, 0x8E, 255, draw.getrandbits(8)))
        multiple = [a ^ definitions.make_shards.multiply(factor, b) for a, b in zip(sums, content[:size])]
        yield case("rs_add_multiple", factor, list(content[:size]), (sums, multiple))
        yield from factor_cases(draw, data, parity)
        for lost in sorted({0, 1, parity // 2, parity}):
            missing = set(draw.sample(range(total), lost))
            damaged = [draw.getrandbits(8) if at // size in missing else it for at, it in enumerate(shards)]
            present = [0 if i in missing else draw.choice((1, 2, 255)) for i in range(total)]
            yield case("rs_reconstruct", data, parity, (damaged, shards), present)
            data_alone = [shards[at] if at < data * size else it for at, it in enumerate(damaged)]
            yield case("rs_reconstruct_data", data, parity, (damaged, data_alone), present)
            made, room = list(definitions.missing_tables(data, present)), list(draw.randbytes(len(tables)))
            made += room[len(made) :]
            yield case("rs_prepare_reconstruct", data, parity, present, (room, made))
            yield case("rs_reconstruct_prepared", data, parity, made, (damaged, shards), present)
            yield case("rs_reconstruct_data_prepared", data, parity, made, (damaged, data_alone), present)
        few = [0] * (parity + 1) + [1] * (data - 1)
        yield refused(case("rs_shard_factors", data, parity, few, 0, [0] * total), "BF_TOO_FEW_SHARDS")
        for name in ("rs_reconstruct", "rs_reconstruct_data"):
            yield refused(case(name, data, parity, (shards, shards), few), "BF_TOO_FEW_SHARDS")
            yield refused(case(f"{name}_prepared", data, parity, tables, (shards, shards), few), "BF_TOO_FEW_SHARDS")
        yield refused(case("rs_prepare_reconstruct", data, parity, few, (tables, tables)), "BF_TOO_FEW_SHARDS")


def factor_cases(draw, data, parity):
    """The factors of shards in one that is missing, and shards that are none or present."""
    total = data + parity
    missing = draw.sample(range(total), draw.randrange(1, parity + 1))
    present = [0 if i in missing else draw.choice((1, 2, 255)) for i in range(total)]
    factors = definitions.shard_factors(data, present, missing[0])
    yield case("rs_shard_factors", data, parity, present, missing[0], factors)
    for other in (next(i for i in range(total) if present[i]), total, (1 << 64) - 1):
        yield refused(case("rs_shard_factors", data, parity, present, other, factors), "BF_LENGTH")


def erasure_cases(draw):
    """Erasure codes by transforms, with shards lost."""
    for data, parity, size in ((1, 1, 1), (2, 1, 5), (3, 9, 4), (4, 2, 17), (5, 3, 33), (10, 6, 8), (16, 4, 3), (17, 20, 2), (1, 31, 2)):
        total, space = data + parity, definitions.transform_space(data, parity)
        words = [draw.getrandbits(16) for _ in range(data * size)]
        coded = definitions.transform_parity(data, parity, words)
        yield case("erasure_space", data, parity, [space])
        yield case("erasure_encode", data, parity, words, coded, space)
        yield case("erasure_encode", data, parity, words, coded, space + 3)
        yield case("erasure_verify", data, parity, words, coded, space, [1])
        for changed in ((words[:-1] + [words[-1] ^ 1], coded), (words, [coded[0] ^ 0x8000] + coded[1:])):
            yield case("erasure_verify", data, parity, *changed, space, [0])
        for lost in sorted({0, 1, parity // 2, parity}):
            missing = set(draw.sample(range(total), lost))
            damaged = [draw.getrandbits(16) if at // size in missing else it for at, it in enumerate(words + coded)]
            present = [0 if i in missing else draw.choice((1, 2, 255)) for i in range(total)]
            halves = (damaged[: data * size], words), (damaged[data * size :], coded)
            yield case("erasure_reconstruct", data, parity, *halves, present, space)
        few = [0] * (parity + 1) + [1] * (data - 1)
        yield refused(case("erasure_reconstruct", data, parity, (words, words), (coded, coded), few, space), "BF_TOO_FEW_SHARDS")
    # There is no code of such counts, whatever the lengths.
    for data, parity in ((0, 1), (1, 0), (1, 65536), (32769, 1), (65536, 1), (65537, 1), (1 << 63, 1 << 63), ((1 << 64) - 1, 1), (1, (1 << 64) - 1)):
        yield refused(case("erasure_space", data, parity, [0]), "BF_CODE")
        yield refused(case("erasure_encode", data, parity, [0], [0], 64), "BF_CODE")
        yield refused(case("erasure_verify", data, parity, [0], [0], 64, [0]), "BF_CODE")
        yield refused(case("erasure_reconstruct", data, parity, ([0], [0]), ([0], [0]), [1, 1], 64), "BF_CODE")
    yield case("erasure_space", 32768, 32768, [40 << 16])


def line_cases(draw):
    """Lines of text: every operation of every field, those that are worked out, and lines with something wrong; each with as much room as its
    answer takes, with more, and with less."""
    lines = [line for line, _ in definitions.worked_lines.rows()]
    assert all(definitions.line_answer(line) == answer for line, answer in definitions.worked_lines.rows())
    for field in FIELDS.values():
        digits = 2 * -(-field.bits // 8)
        for name, (count, _) in definitions.OPERATIONS.items():
            for values in ([0] * count, drawn(field, draw, count), [(1 << field.bits) - 1, 1][:count]):
                operands = [f"{it:0{digits}x}" for it in values]
                lines.append(" ".join([field.name, name, *operands]).encode())
            lines.append(" ".join([field.name, name, *operands, draw.choice(operands).upper()][: draw.randrange(2, 5)]).encode())
            lines.append(" ".join([field.name, name, *operands])[:-1].encode() + draw.choice((b"", b"g", b"\n", b"\xff", b"\xc3\xa9")))
    for line in lines:
        answer = list(definitions.line_answer(line).encode())
        for room in sorted({len(answer), 48, 64}):
            yield case("answer", line, answer + [UNWRITTEN & 255] * (room - len(answer)), [len(answer)])
        for room in {0, 1, len(answer) - 1}:
            yield refused(case("answer", line, [0] * room, [0]), "BF_LENGTH")


def of_length(it, place, length):
    """The case with one array of another length."""
    argument = it.arguments[place]
    changed = (argument.after + [0] * length)[:length]
    return with_argument(it, place, after=changed, before=None if argument.before is None else (argument.before + [0] * length)[:length])


def whole_case(it, n):
    """The one call of a case at length n."""
    if it.each is None:
        return it
    arguments = []
    for a in it.arguments:
        if a.kind == "result":
            a = dataclasses.replace(a, after=[a.after[n]])
        elif a.cut:
            a = dataclasses.replace(a, after=a.after[:n], before=a.before and a.before[:n])
        arguments.append(dataclasses.replace(a, cut=False))
    return dataclasses.replace(it, arguments=arguments, each=None)


# Arrays whose length says nothing to those of the others; of indexes that are too few or too many other things are told first.
FREE = {"coefficients", "message", "blocks", "associated", "ciphertext", "line", "indexes"}


def length_cases(it):
    """The call with each array shorter and longer than it has to be."""
    if it.name == "tags_are_equal":
        return
    arrays = [at for at, a in enumerate(it.arguments) if a.kind in ARRAYS and a.name not in FREE]
    if len(arrays) == 1 and not it.name.startswith(("tag", "rs", "code", "g128_transform", "g128_inverse_transform")):
        return
    for at in arrays:
        length = len(it.arguments[at].after)
        for other in {0, 1, length - 1, length + 1, 2 * length + 1} - {length}:
            power = it.name.endswith("transform") and other and other & (other - 1) == 0
            longer_basis = it.name == "g128_low_stages" and at == 2 and other >= 3
            no_values = it.name == "g128_low_stages" and at == 0 and other == 0
            shards = it.name.startswith("rs_") and it.arguments[at].name == "shards"
            more_space = it.arguments[at].kind == "space" and other > length
            whole_words = it.name in ("code_encode", "code_encode_interleaved", "field_code_encode") and other % it.arguments[1].after[0] == 0
            no_flags = it.arguments[at].name == "erasures" and other == 0
            whole_shards = shards and other and other % (it.arguments[0].after[0] + it.arguments[1].after[0]) == 0
            if other >= 0 and not (power or longer_basis or no_values or more_space or whole_words or no_flags or whole_shards):
                yield refused(of_length(it, at, other), "BF_LENGTH")


def element_cases(it, bits):
    """The call with a word that is no element of the field, at the first, a middle and the last place of each array."""
    for at, a in enumerate(it.arguments):
        if a.kind not in ("in", "inout", "scalar"):
            continue
        for place in sorted({0, len(a.before) // 2, len(a.before) - 1}):
            for word in (1 << bits, 255):
                changed = list(a.before)
                changed[place] = word
                wrong = with_argument(it, at, before=changed, after=changed)
                yield refused(wrong, "BF_NOT_AN_ELEMENT")
        # The lengths are told first.
        if a.kind != "scalar" and a.name not in FREE:
            yield from (it for it in length_cases(wrong) if len(it.arguments[at].after) > len(changed))


def status_cases(cases):
    """Each status on purpose, from a call of each function that succeeds."""
    seen = set()
    for it in cases:
        if it.name in seen or it.status or it.each == 0:
            continue
        it = whole_case(it, 33 if it.each and it.each >= 33 else it.each)
        if any(a.kind in ARRAYS and len(a.after) < 2 and a.name not in FREE for a in it.arguments):
            continue
        seen.add(it.name)
        yield from length_cases(it)
        field = FIELDS.get(it.name.split("_")[0])
        if field and field.bits < 8 and not it.name.endswith("generator"):
            if it.name.endswith("evaluate"):
                it = dataclasses.replace(it, arguments=[dataclasses.replace(a, before=a.before or None) for a in it.arguments])
                it = whole_case(evaluated(field, [1, 0, 1], [0, 1, 1, 0, 1]), 5)
            yield from element_cases(it, field.bits)
    for sizes in ((1 << 61, 0), (0, 1 << 61), ((1 << 64) - 1, 5), (1 << 61, 1 << 61)):
        yield refused(case("tag_gcm_ghash_final", ([7], [7]), *sizes, [0] * 16), "BF_LENGTH")
    everything = [0] * 512
    for data, parity in ((0, 1), (1, 0), (0, 0), (256, 1), (1, 256), (2, 255), (1 << 63, 1 << 63), ((1 << 64) - 1, 1), (1, (1 << 64) - 1), (1 << 32, 4)):
        for name in (it for it, parameters in FUNCTIONS.items() if it.startswith("rs_") and parameters[0][1] == "data"):
            given = {
                "tables": everything, "shards": everything, "present": [1] * 257, "whole": [0], "length": [0], "shard": [1], "sums": [0],
                "factors": everything,
            }
            kinds = FUNCTIONS[name][2:]
            rest = [(given[it], given[it]) if kind == "inout" else 0 if kind == "count" else given[it] for kind, it, _ in kinds]
            yield refused(case(name, data, parity, *rest), "BF_CODE")
    field = FIELDS["g128"]
    draw = random.Random(1)
    # Runs past the basis: with five elements there are four runs.
    for runs, first in ((1, 4), (2, 3), (5, 0), (1, (1 << 64) - 1), (2, (1 << 64) - 1)):
        values, shifts, basis = (drawn(field, draw, it) for it in (16 * runs, 4, 5))
        yield case("g128_low_stages", (values, values), shifts, basis, first, status="BF_LENGTH")
    # Of a number of a run no bit stands for an element past the 128th.
    values, shifts, basis = (drawn(field, draw, it) for it in (16, 4, 129))
    yield case("g128_low_stages", (values, definitions.low_stages(values, shifts, basis[:128], 7)), shifts, basis[:128], 7)
    yield case("g128_low_stages", (values, values), shifts, basis, 7, status="BF_LENGTH")


# Whether empty arrays have the lengths of a call over matrices of these dimensions.
EMPTY = {
    "matrix_multiply": lambda rows, inner, columns: rows * inner == inner * columns == rows * columns == 0,
    "matrix_row_reduce": lambda rows, columns: rows == 0,
    "matrix_rank": lambda rows, columns: rows == 0,
    "matrix_transpose": lambda rows, columns: rows * columns == 0,
    "matrix_determinant": lambda size: size == 0,
    "matrix_inverse": lambda size: size == 0,
    "matrix_solve": lambda rows, columns: rows == columns == 0,
}


def empty_cases():
    """Each function that takes numbers of rows, of shards or of other things, at every choice of 0, 2^63 and 2^64 - 1 for these, without
    elements: a call may not go over rows or columns that have none."""
    most = (1 << 64) - 1
    for name, parameters in FUNCTIONS.items():
        own = name.partition("_")[2]
        taken = sum(kind == "count" for kind, _, _ in parameters)
        for counts in itertools.product((0, 1 << 63, most), repeat=taken) if taken else ():
            refusing = ("rs_", "erasure_", "code_", "secret_", "bch_")
            reducible = name.startswith("field_")
            status = "BF_CODE" if name.startswith(refusing) else "BF_REDUCIBLE" if reducible else "BF_LENGTH"
            if name.startswith("secret_combine") and counts[0]:
                status = "BF_TOO_FEW_SHARDS"
            if name.startswith("field_next_"):
                status = "BF_UNSOLVABLE"
            if own in EMPTY and EMPTY[own](*counts) and not reducible:
                status = "BF_OK"
            left = iter(counts)
            given = {"in": [], "out": [], "inout": ([], []), "state": ([0], [0]), "space": 0, "scalar": 0, "number": 0x11D}
            given["result"] = [1 if own == "matrix_determinant" else 0]
            made = case(name, *(next(left) if kind == "count" else given[kind] for kind, _, _ in parameters))
            yield made if status == "BF_OK" else refused(made, status)
    # There is no run, whatever the number of the first.
    yield case("g128_low_stages", ([], []), [1] * 4, [1] * 3, most)


def replayed_cases():
    """Calls with what they have to leave by the Rust crate p3-binary-field 0.8.0; scripts/make_vectors.py says how a line is read."""
    for line in REPLAYED.read_text(encoding="ascii").splitlines():
        if not line.startswith("#"):
            name, *words = line.split()
            yield case(name, *(value_of(*it) for it in zip(FUNCTIONS[name], words, strict=True)))


def value_of(parameter, word):
    """The value of a parameter as `case` takes it, from a word of a line."""
    kind = parameter[0]
    lists = [[int(it, 16) for it in text.split(",")] if text != "-" else [] for text in word.split("/")]
    return lists if kind == "inout" else lists[0] if kind in (*ARRAYS, "result") else lists[0][0]


def all_cases():
    """Every case, and the same in every run."""
    draw = random.Random(20261126)
    cases = []
    for field in FIELDS.values():
        cases += field_cases(field, draw)
        cases += matrix_cases(field, draw)
    others = (
        basis_cases, chosen_cases, bit_matrix_cases, stage_cases, tag_cases, code_cases, *correcting.CASES, *field_correcting.CASES, erasure_cases, long_cases,
        line_cases,
    )
    for them in others:
        cases += them(draw)
    worked = [case(name, *values) for name, *values in published.rows()]
    cases += [*status_cases(cases), *worked]
    missing = FUNCTIONS.keys() - {it.name for it in cases}
    assert not missing, f"no case calls {sorted(missing)}"
    return [*cases, *replayed_cases()]
