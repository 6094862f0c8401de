"""Every function of the C library by its definition, over plain integers, with shifts and exclusive ors.

An element is an integer, and a sum is `^`. An element of p192 has the coefficient of y^i in its bits 64 i to 64 i + 63. A field is
an object of `Field`, by its name in FIELDS; the functions that belong to no field are here under their own names.
"""

import functools
import pathlib
import re
import sys

TOP = pathlib.Path(__file__).resolve().parent.parent
sys.path.insert(0, str(TOP / "scripts"))
import c_library
import cantor
import fields
import make_shards
import polynomials
import tower
import worked_lines

# Products of small elements come again and again in one of a large level.
tower.multiply = functools.lru_cache(1 << 16)(tower.multiply)

# What bf_version returns.
VERSION = fields.VERSION_NUMBER
# The primes that divide 2^n - 1 for the degrees n of the fields.
PRIMES = [3, 5, 7, 13, 17, 97, 193, 241, 257, 641, 673, 65537, 274177, 6700417, 22253377, 67280421310721, 18446744069414584321]


class Field:
    """A field by its product."""

    def __init__(self, row):
        self.row = row
        self.name, self.word, self.bits, self.generator = row.name, row.word, row.bits, row.generator

    def multiply(self, a, b):
        """The product: in the tower by halves, else modulo the field's polynomial."""
        return self.row.multiply(a, b)

    def square(self, a):
        return self.multiply(a, a)

    @functools.cache
    def power(self, a, exponent):
        """By the bits of the exponent, highest first."""
        result = 1
        for bit in bin(exponent)[2:]:
            result = self.square(result)
            if bit == "1":
                result = self.multiply(result, a)
        return result

    @functools.cache
    def inverse(self, a):
        """The element whose product with `a` is 1, and 0 for 0. It is found by a chain, and then multiplied."""
        if a == 0:
            return 0
        # a^(2^m - 1) for growing m, by a^(2^(m + k) - 1) = (a^(2^m - 1))^(2^k) a^(2^k - 1); the inverse is the square at m = n - 1.
        reached, power = 1, a
        for bit in bin(self.bits - 1)[3:]:
            power, reached = self.multiply(self.frobenius(power, reached), power), 2 * reached
            if bit == "1":
                power, reached = self.multiply(self.square(power), a), reached + 1
        found = self.square(power) if self.bits > 1 else a
        assert self.multiply(a, found) == 1
        return found

    def frobenius(self, a, times):
        for _ in range(times):
            a = self.square(a)
        return a

    @functools.cache
    def square_root(self, a):
        """The element whose square is `a`: the sum, over its bits, of the roots of the powers of two."""
        root = polynomials.image(self.roots, a)
        assert self.square(root) == a
        return root

    @functools.cached_property
    def roots(self):
        return [self.frobenius(1 << i, self.bits - 1) for i in range(self.bits)]

    # ---- matrices, whose elements stand row after row

    def matrix_product(self, left, right, rows, inner, columns):
        """Entry (i, j) is the sum of the products of entry (i, k) of the left and entry (k, j) of the right matrix."""
        return [
            total(self.multiply(left[i * inner + k], right[k * columns + j]) for k in range(inner)) for i in range(rows) for j in range(columns)
        ]

    def echelon(self, matrix, rows, columns):
        """The reduced row echelon form, and the columns of its leading entries: each column in turn is cleared by a row that is not 0 there
        and that led no column before."""
        table = [list(matrix[i * columns : (i + 1) * columns]) for i in range(rows)]
        pivots = []
        for column in range(columns):
            rank = len(pivots)
            found = next((i for i in range(rank, rows) if table[i][column]), None)
            if found is None:
                continue
            scalar = self.inverse(table[found][column])
            leading = [self.multiply(scalar, it) for it in table[found]]
            table[found] = table[rank]
            for i in range(rows):
                factor = table[i][column]
                table[i] = [a ^ self.multiply(factor, b) for a, b in zip(table[i], leading)]
            table[rank] = leading
            pivots.append(column)
        return [it for row in table for it in row], pivots

    def determinant(self, matrix, size):
        """By Laplace's expansion along the first row; the determinants of parts of the last rows are kept by their columns."""
        known = {(): 1}

        def part(columns):
            if columns not in known:
                row = size - len(columns)
                known[columns] = total(
                    self.multiply(matrix[row * size + it], part(columns[:at] + columns[at + 1 :])) for at, it in enumerate(columns)
                )
            return known[columns]

        return part(tuple(range(size)))

    def matrix_inverse(self, matrix, size):
        """The right half of the reduced row echelon form of the matrix beside the identity matrix, or None where the left one is not that."""
        beside = [it for i in range(size) for it in (*matrix[i * size : (i + 1) * size], *(int(i == j) for j in range(size)))]
        form, pivots = self.echelon(beside, size, 2 * size)
        if pivots != list(range(size)):
            return None
        return [it for i in range(size) for it in form[(2 * i + 1) * size : (2 * i + 2) * size]]

    def solution(self, matrix, right, rows, columns):
        """The x with matrix x = right that is 0 where no leading entry stands, or None where there is none."""
        beside = [it for i in range(rows) for it in (*matrix[i * columns : (i + 1) * columns], right[i])]
        form, pivots = self.echelon(beside, rows, columns + 1)
        if columns in pivots:
            return None
        found = [0] * columns
        for row, column in enumerate(pivots):
            found[column] = form[row * (columns + 1) + columns]
        return found

    def has_full_order(self, a):
        """Whether every element but 0 is a power of `a`."""
        order = (1 << self.bits) - 1
        return self.power(a, order) == 1 and all(self.power(a, order // it) != 1 for it in PRIMES if order % it == 0)


FIELDS = {it.name: Field(it) for it in fields.FIELDS}
GHASH = FIELDS["g128"]


def total(values):
    """The sum of elements."""
    result = 0
    for it in values:
        result ^= it
    return result


def running(values, step, first):
    """What `step` makes of `first` and the values one by one: a list that begins with `first`."""
    result = [first]
    for it in values:
        result.append(step(result[-1], it))
    return result


def chosen_product(modulus, a, b):
    """The remainder of the product of two polynomials modulo a third."""
    product = total(a << i for i in range(b.bit_length()) if b >> i & 1)
    while (above := product.bit_length() - modulus.bit_length()) >= 0:
        product ^= modulus << above
    return product


def group_primes(degree):
    """The primes that divide 2^degree - 1, by trial; those above 2^20 are known."""
    rest, found = (1 << degree) - 1, []
    for prime in [*range(3, 1 << 20, 2), 6700417, 67280421310721, (1 << 61) - 1, (1 << 127) - 1]:
        if prime * prime > rest and rest < 1 << 40:
            break
        if rest % prime == 0:
            found.append(prime)
            while rest % prime == 0:
                rest //= prime
    return found + [rest] * (rest > 1)


def chosen_power(modulus, a, exponent):
    """A polynomial to the power of an exponent modulo another."""
    result = 1
    for bit in bin(exponent)[2:]:
        result = chosen_product(modulus, result, result)
        if bit == "1":
            result = chosen_product(modulus, result, a)
    return result


def minimal_polynomial(modulus, element):
    """The polynomial of the least degree over GF(2) with an element as a root: the product of x and each conjugate of it, whose coefficients
    are 0 and 1."""
    coefficients, conjugate = [1], element
    while True:
        higher = [0, *coefficients]
        coefficients = [a ^ b for a, b in zip(higher, [chosen_product(modulus, it, conjugate) for it in coefficients] + [0])]
        conjugate = chosen_product(modulus, conjugate, conjugate)
        if conjugate == element:
            return sum(it << at for at, it in enumerate(coefficients))


def field_words(degree, tail):
    """The words of a field that a caller chooses, as one number, the lowest first: the degree, the terms of the modulus below that, and two
    that are kept for later versions."""
    return degree | tail << 64


def columns(width, inverted):
    """The images of the bits of a level of the tower in the polynomial basis of the same degree, or those back."""
    found = next(it for it in fields.FIELDS if it.modulus and it.bits == width).columns
    return polynomials.inverse_of(found) if inverted else found


def linear_map(images, value):
    """The sum of the images at the set bits."""
    return polynomials.image(images, value)


# ---- additive transforms over g128 and levels of the tower


@functools.cache
def cantor_vectors():
    """The images of the vectors of the tower."""
    return [linear_map(columns(128, False), it) for it in cantor.vectors()]


def subspace_values(x, count, field):
    """s_0(x) to s_(count - 1)(x)."""
    values = [x]
    while len(values) < count:
        values.append(field.square(values[-1]) ^ values[-1])
    return values


def sum_of_factors(coefficients, factors, field):
    """The sum of each coefficient k times the product of the factors at the set bits of k."""
    products = [1]
    for it in factors:
        products += [field.multiply(product, it) for product in products]
    return total(field.multiply(coefficient, product) for coefficient, product in zip(coefficients, products))


def transform_value(coefficients, shift, place, field=GHASH):
    """The value at one point of the polynomial with 2^m coefficients."""
    m = len(coefficients).bit_length() - 1
    vectors = cantor_vectors() if field is GHASH else cantor.vectors()
    point = shift ^ linear_map(vectors, place)
    return sum_of_factors(coefficients, subspace_values(point, m, field) if m else [], field)


def transform(coefficients, shift, field=GHASH):
    return [transform_value(coefficients, shift, place, field) for place in range(len(coefficients))]


def low_stages(values, shifts, basis, first_run):
    """What the four lowest stages leave in runs of sixteen places."""
    result = []
    for start in range(0, len(values), 16):
        for i in range(16):
            place = 16 * first_run + start + i
            factors = [shifts[j] ^ linear_map(basis, place >> (j + 1)) ^ (place >> j & 1) for j in range(4)]
            result.append(sum_of_factors(values[start : start + 16], factors, GHASH))
    return result


# ---- tags


def blocks(message):
    """Blocks of 16 bytes, the last filled up with zeros."""
    return [message[at : at + 16].ljust(16, b"\0") for at in range(0, len(message), 16)]


def gcm_product(x, y):
    """The product of two blocks as numbers, the first bit highest (NIST SP 800-38D, section 6.3)."""
    z, v = 0, y
    for i in range(128):
        if x >> (127 - i) & 1:
            z ^= v
        v = v >> 1 ^ (0xE1 << 120 if v & 1 else 0)
    return z


def ghash_blocks(key, message_blocks):
    """Section 6.4."""
    y = 0
    for block in message_blocks:
        y = gcm_product(y ^ int.from_bytes(block, "big"), int.from_bytes(key, "big"))
    return y.to_bytes(16, "big")


def ghash(key, message):
    return ghash_blocks(key, blocks(message))


def lengths(associated_length, ciphertext_length):
    """The last block of GCM: two lengths in bits."""
    return (8 * associated_length).to_bytes(8, "big") + (8 * ciphertext_length).to_bytes(8, "big")


def gcm_ghash(key, associated, ciphertext):
    return ghash_blocks(key, [*blocks(associated), *blocks(ciphertext), lengths(len(associated), len(ciphertext))])


def polyval(key, message):
    """RFC 8452, section 3: the product of each step is a b x^-128."""
    modulus = 1 << 128 | 1 << 127 | 1 << 126 | 1 << 121 | 1
    inverse = 1 << 127 | 1 << 124 | 1 << 121 | 1 << 114 | 1
    s = 0
    for block in blocks(message):
        s = polynomials.multiply(modulus, s ^ int.from_bytes(block, "little"), int.from_bytes(key, "little"))
        s = polynomials.multiply(modulus, s, inverse)
    return s.to_bytes(16, "little")


def ghash_field_product(a, b):
    """In the field of GHASH as the library has it, where bit i is the coefficient of x^i."""
    return polynomials.multiply(fields.field_named("g128").modulus, a, b)


def powers_as_bytes(element):
    """An element of that field and its powers up to the fourth, 16 bytes each, the lowest first."""
    powers = [element]
    while len(powers) < 4:
        powers.append(ghash_field_product(powers[-1], element))
    return b"".join(it.to_bytes(16, "little") for it in powers)


def reversed_number(block, order):
    """A block as the library has it, where bit i is the coefficient of x^i."""
    return int(f"{int.from_bytes(block, order):0128b}"[::-1], 2)


def state_of(multiplier, whole_hash, rest):
    """A hash in pieces, as a number of its bytes, the lowest first: the powers of what the field multiplies by, the hash of whole blocks, and
    the bytes behind them."""
    content = powers_as_bytes(multiplier) + whole_hash.to_bytes(16, "little") + rest.ljust(16, b"\0") + len(rest).to_bytes(8, "little")
    return int.from_bytes(content, "little")


def ghash_state(key, message):
    """A hash of GHASH that holds the message."""
    end = len(message) // 16 * 16
    return state_of(reversed_number(key, "big"), reversed_number(ghash(key, message[:end]), "big"), message[end:])


def polyval_state(key, message):
    """A hash of POLYVAL that holds the message. The multiplier is the key times x."""
    end = len(message) // 16 * 16
    multiplier = ghash_field_product(2, reversed_number(key, "little"))
    return state_of(multiplier, reversed_number(polyval(key, message[:end]), "little"), message[end:])


# ---- Reed-Solomon codes


@functools.cache
def byte_inverse(a):
    """The inverse of a byte but 0 in the field of the codes."""
    return next(b for b in range(256) if make_shards.multiply(a, b) == 1)


class CodeBytes:
    """The field of the codes."""

    multiply = staticmethod(make_shards.multiply)
    inverse = staticmethod(byte_inverse)


def codeword(column, total):
    """The values at the bytes 0 to total - 1 of the polynomial with these values at the first of them, by divided differences."""
    newton = list(column)
    for j in range(1, len(newton)):
        for i in range(len(newton) - 1, j - 1, -1):
            newton[i] = make_shards.multiply(newton[i] ^ newton[i - 1], byte_inverse(i ^ (i - j)))
    values = []
    for x in range(total):
        value = 0
        for i in range(len(newton) - 1, -1, -1):
            value = make_shards.multiply(value, x ^ i) ^ newton[i]
        values.append(value)
    assert values[: len(newton)] == list(column)
    return values


def lagrange_factor(field, points, own, at):
    """The factor of the value at the point `own`, one of these, in the value at another point, by Lagrange's formula."""
    factor = 1
    for it in points:
        if it != own:
            factor = field.multiply(factor, field.multiply(at ^ it, field.inverse(own ^ it)))
    return factor


@functools.cache
def parity_factor(data, parity_at, own):
    """The factor of a shard of data in a shard of parity."""
    return lagrange_factor(CodeBytes, range(data), own, data + parity_at)


def row_tables(data, rows):
    """The tables of rows of factors: of four rows at once, for each shard of data the products of its four factors by 0, .., 15 and by
    0, 16, .., 240. Where fewer than four rows are left, the others keep what the four before had, and zeros where there are none."""
    tables, group = b"", bytearray(128 * data)
    for at, factors in enumerate(rows):
        for own, factor in enumerate(factors):
            start = 128 * own + 32 * (at % 4)
            group[start : start + 32] = bytes(make_shards.multiply(factor, it) for it in [*range(16), *range(0, 256, 16)])
        if at % 4 == 3 or at == len(rows) - 1:
            tables += group
    return tables


def parity_tables(data, parity):
    """The tables of a code."""
    return row_tables(data, [[parity_factor(data, at, own) for own in range(data)] for at in range(parity)])


def missing_tables(data, present):
    """The tables of the missing shards, of the first that are present, as many as there are of data."""
    points = [i for i, it in enumerate(present) if it][:data]
    missing = [i for i, it in enumerate(present) if not it]
    return row_tables(data, [[lagrange_factor(CodeBytes, points, i, shard) for i in points] for shard in missing])


def added_shard(data, own, parity_at, shard, sums):
    """The sums after a shard of data was added to a shard of parity."""
    return [was ^ make_shards.multiply(parity_factor(data, parity_at, own), it) for was, it in zip(sums, shard)]


def shard_factors(data, present, shard):
    """The factors of all shards in one: of the first that are present, as many as there are of data, and 0 of the others."""
    points = [i for i, it in enumerate(present) if it][:data]
    return [lagrange_factor(CodeBytes, points, i, shard) if i in points else 0 for i in range(len(present))]


def encoded(data, parity, content):
    """All shards, one after the other, of the bytes of those of data."""
    size = len(content) // data
    columns = [codeword(content[at::size], data + parity) for at in range(size)]
    return b"".join(bytes(shard) for shard in zip(*columns))


# ---- codes that correct errors

# The generators that standards take, by moduli of fields of bytes.
CODE_GENERATORS = {0x11D: 2, 0x187: 2, 0x11B: 3}


@functools.cache
def code_product(modulus, a, b):
    """The product of two elements of the field with a modulus, bit by bit."""
    bits = modulus.bit_length() - 1
    product = total(a << place for place in range(bits) if b >> place & 1)
    for place in range(2 * bits - 2, bits - 1, -1):
        product ^= (product >> place & 1) * (modulus << place - bits)
    return product


def code_power(modulus, exponent, base=None):
    """A power of the generator, or of another element."""
    result, square = 1, CODE_GENERATORS[modulus] if base is None else base
    while exponent:
        result = code_product(modulus, result, square) if exponent & 1 else result
        square, exponent = code_product(modulus, square, square), exponent >> 1
    return result


def code_roots(modulus, symbols, data, first_root, root_step):
    """The roots of a code over bytes."""
    return [code_power(modulus, root_step * (first_root + m) % 255) for m in range(symbols - data)]


def field_code_roots(modulus, symbols, data, first_root, root):
    """The roots of a code over any field."""
    return [code_power(modulus, first_root + m, root) for m in range(symbols - data)]


def bch_roots(modulus, bits, errors, root_step):
    """The roots of a binary code: the powers of an element, and their squares, the squares of these and so on."""
    found = set()
    for exponent in range(1, 2 * errors + 1):
        root = code_power(modulus, root_step * exponent)
        while root not in found:
            found.add(root)
            root = code_product(modulus, root, root)
    return sorted(found)


def code_value(modulus, word, x):
    """The value at x of the polynomial whose coefficients are the symbols of a word, that of the highest power first."""
    value, power = 0, 1
    for symbol in reversed(word):
        value ^= code_product(modulus, symbol, power)
        power = code_product(modulus, power, x)
    return value


def code_syndromes(code, word):
    """The values of a word at the roots of a code over bytes, which is the numbers that a call takes."""
    return [code_value(code[0], word, it) for it in code_roots(*code)]


def word_with_roots(modulus, roots, data):
    """The word with these data, behind which stands the rest of their polynomial, times a power of x, by the product of x + r over the roots r."""
    generator = [1]
    for root in roots:
        generator = [a ^ code_product(modulus, root, b) for a, b in zip([*generator, 0], [0, *generator])]
    rest = [*data, *[0] * len(roots)]
    for at in range(len(data)):
        factor = rest[at]
        for place, it in enumerate(generator):
            rest[at + place] ^= code_product(modulus, factor, it)
    return [*data, *rest[len(data):]]


def code_word(code, data):
    """The word of a code over bytes with these data."""
    return word_with_roots(code[0], code_roots(*code), data)


def code_meant(checks, words, received, erased):
    """What a received word stands for: that of all words of a code with so many symbols that are not data from which it differs at t places beside
    e erased ones, where 2 t + e is at most their number; or None."""
    for it in words:
        wrong = sum(a != b for a, b, flag in zip(it, received, erased) if not flag)
        if 2 * wrong + sum(map(bool, erased)) <= checks:
            return it
    return None


# ---- shares of a secret


def share(modulus, secret, draws, index):
    """The share at an index: byte by byte the sum of the coefficients times powers of the index, the lowest the byte of the secret."""
    rows = [secret, *(draws[at : at + len(secret)] for at in range(0, len(draws), len(secret)))]
    return bytes(
        total(polynomials.multiply(modulus, row[place], polynomials.power(modulus, index, k)) for k, row in enumerate(rows))
        for place in range(len(secret))
    )


# ---- erasure codes by transforms, over t16


@functools.cache
def cantor_point(place):
    """The point of a place: the sum of the Cantor vectors at its set bits."""
    return linear_map(cantor.vectors(), place)


def coefficient_count(data):
    """The least power of two that is at least the number of shards of data."""
    return 1 << (data - 1).bit_length()


@functools.cache
def transform_factor(data, parity_at, own):
    """The factor of a shard of data in a shard of parity: the polynomial has zeros at the points behind those of the data."""
    count = coefficient_count(data)
    points = [cantor_point(it) for it in range(count)]
    return lagrange_factor(FIELDS["t16"], points, points[own], cantor_point(count + parity_at))


def transform_parity(data, parity, words):
    """The words of the shards of parity, of the words of those of data."""
    field, size = FIELDS["t16"], len(words) // data
    return [
        total(field.multiply(transform_factor(data, row, own), words[own * size + column]) for own in range(data))
        for row in range(parity)
        for column in range(size)
    ]


def transform_space(data, parity):
    """How many words of space a call takes."""
    return 40 * coefficient_count(coefficient_count(data) + parity)


# ---- lines of text


def coefficients_turned(field, number):
    """An element of p192 with its coefficients in the other order, as a line has them; every other element as it is."""
    parts = [number >> 64 * place & (1 << 64) - 1 for place in range(3)]
    return parts[0] << 128 | parts[1] << 64 | parts[2] if field.bits == 192 else number


def inverse_or_none(field, a):
    """The inverse of an element, None for 0."""
    return field.inverse(a) if a else None


# The operations of lines: how many operands each has, and what it gives.
OPERATIONS = {
    "add": (2, lambda field, a, b: a ^ b),
    "mul": (2, lambda field, a, b: field.multiply(a, b)),
    "square": (1, lambda field, a: field.square(a)),
    "inv": (1, inverse_or_none),
    "sqrt": (1, lambda field, a: field.square_root(a)),
}


class Modulo(Field):
    """The polynomials modulo one."""

    name = "field"

    def __init__(self, bits, modulus):
        self.bits, self.modulus = bits, modulus

    def multiply(self, a, b):
        return chosen_product(self.modulus, a, b)

    def square(self, a):
        return self.multiply(a, a)

    def inverse(self, a):
        return chosen_power(self.modulus, a, (1 << self.bits) - 2)

    def square_root(self, a):
        return chosen_power(self.modulus, a, 1 << self.bits - 1)


def common_factor(a, b):
    """The greatest common factor of two polynomials, by Euclid's algorithm."""
    while b:
        a, b = b, remainder(a, b)
    return a


def remainder(a, modulus):
    """What is left of a polynomial modulo another."""
    return chosen_product(modulus, a, 1)


def is_irreducible(modulus):
    """Whether no polynomial of half its degree at most divides it, by Ben-Or's test."""
    power = 2
    for _ in range((modulus.bit_length() - 1) // 2):
        power = chosen_product(modulus, power, power)
        if common_factor(modulus, power ^ 2) != 1:
            return False
    return modulus.bit_length() > 1


def field_of_word(word):
    """The field that the first word of a line names; else the answer to the line."""
    if word in FIELDS:
        return FIELDS[word]
    written = re.fullmatch("gf:([0-9]{1,3}):([0-9a-fA-F]{1,33})", word)
    if not written:
        return "error 1"
    degree, modulus = int(written[1]), int(written[2], 16)
    has_field = 1 <= degree <= 128 and modulus.bit_length() == degree + 1 and is_irreducible(modulus)
    return Modulo(degree, modulus) if has_field else "error 7"


def line_answer(line):
    """What the program binfield answers to the bytes of a line; of several errors the first of these."""
    try:
        words = [it for it in line.decode("utf-8").split(" ") if it]
    except UnicodeDecodeError:
        return "error 6"
    field = field_of_word(words[0]) if words else "error 1"
    if isinstance(field, str):
        return field
    if len(words) < 2 or words[1] not in OPERATIONS:
        return "error 2"
    (count, compute), operands = OPERATIONS[words[1]], words[2:]
    if len(operands) != count:
        return "error 3"
    digits = 2 * -(-field.bits // 8)
    if any(len(it) != digits or set(it) - set("0123456789abcdefABCDEF") for it in operands):
        return "error 4"
    numbers = [coefficients_turned(field, int(it, 16)) for it in operands]
    if any(it >> field.bits for it in numbers):
        return "error 5"
    result = compute(field, *numbers)
    return "none" if result is None else f"{coefficients_turned(field, result):0{digits}x}"
