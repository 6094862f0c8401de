"""The tower of binary fields, for the scripts that make literals.

An element of level k is an integer below 2 ** (2 ** k); bit sums are `^`. Level k + 1 adjoins to level k a root X of
X^2 + t X + 1, where t is the root that level k adjoined and 1 over the bits.
"""


def halves(level, a):
    """The part of an element of `level` without its root, and the part that the root multiplies."""
    bits = 1 << (level - 1)
    return a & ((1 << bits) - 1), a >> bits


def pair(level, low, high):
    """The element of `level` with these halves."""
    return high << (1 << (level - 1)) | low


def times_root(level, a):
    """The product by the root that `level` adjoins: X (low + high X) = high + (low + t high) X."""
    if level == 0:
        return a
    low, high = halves(level, a)
    return pair(level, high, low ^ times_root(level - 1, high))


def over_root(level, a):
    """The quotient by the root: 1 / X is X + t, so (low + high X) / X = (high + t low) + low X."""
    if level == 0:
        return a
    low, high = halves(level, a)
    return pair(level, high ^ times_root(level - 1, low), low)


def multiply(level, a, b):
    """The product of two elements."""
    if level == 0:
        return a & b
    a_low, a_high = halves(level, a)
    b_low, b_high = halves(level, b)
    low = multiply(level - 1, a_low, b_low)
    high = multiply(level - 1, a_high, b_high)
    mixed = multiply(level - 1, a_low ^ a_high, b_low ^ b_high) ^ low ^ high
    return pair(level, low ^ high, mixed ^ times_root(level - 1, high))


def square(level, a):
    """The square of an element."""
    if level == 0:
        return a
    low, high = (square(level - 1, half) for half in halves(level, a))
    return pair(level, low ^ high, times_root(level - 1, high))


def square_root(level, a):
    """The element whose square is `a`."""
    if level == 0:
        return a
    low, high = halves(level, a)
    quotient = over_root(level - 1, high)
    return pair(level, square_root(level - 1, low ^ quotient), square_root(level - 1, quotient))
