"""Polynomials over GF(2) as integers, whose bit i is the coefficient of x^i, and linear maps over the bits of integers."""

# The modulus of the bytes of erasure codes, x^8 + x^4 + x^3 + x^2 + 1.
CODES = 0x11D

# The moduli of the bytes of codes besides those of AES, of QR and DVB, and of CCSDS 131.0-B, each with a generator.
CORRECTED = [(CODES, 2), (0x187, 2)]


def multiply(modulus, a, b):
    """The product of two polynomials below the degree of the modulus, modulo that."""
    width = modulus.bit_length() - 1
    product = 0
    while b:
        if b & 1:
            product ^= a
        a <<= 1
        if a >> width:
            a ^= modulus
        b >>= 1
    return product


def power(modulus, a, exponent):
    """A polynomial to the power of the exponent, modulo another."""
    result = 1
    for bit in bin(exponent)[2:]:
        result = multiply(modulus, result, result)
        if bit == "1":
            result = multiply(modulus, result, a)
    return result


def text(polynomial):
    """A polynomial as people write it."""
    terms = {0: "1", 1: "x"}
    places = [place for place in reversed(range(polynomial.bit_length())) if polynomial >> place & 1]
    return " + ".join(terms.get(place, f"x^{place}") for place in places)


def image(columns, x):
    """The value of a linear map at x: the sum of its columns at the set bits of x."""
    total = 0
    for place, column in enumerate(columns):
        if x >> place & 1:
            total ^= column
    return total


def inverse_of(columns):
    """The columns of the inverse of a linear map, by elimination."""
    rows = []  # (value, which columns it is the sum of), each with a leading bit of its own
    for place, column in enumerate(columns):
        combination = 1 << place
        for value, parts in rows:
            if column ^ value < column:
                column ^= value
                combination ^= parts
        rows.append((column, combination))
        rows.sort(reverse=True)
    inverse = []
    for place in range(len(columns)):
        rest, combination = 1 << place, 0
        for value, parts in rows:
            if rest ^ value < rest:
                rest ^= value
                combination ^= parts
        assert rest == 0
        inverse.append(combination)
    return inverse
