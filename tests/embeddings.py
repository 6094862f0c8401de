"""Roots of the modulus of one field in another, and images by them, as the definitions give them."""

import definitions

# Pairs of fields, each by its degree and the other terms of its modulus: where the root is the only one, where one field is in the other,
# where both are isomorphic, and where the degree does not divide.
PAIRS = [
    ((1, 0), (8, 0x1D)), ((1, 1), (61, 0x27)), ((2, 3), (8, 0x1B)), ((3, 3), (3, 5)), ((8, 0x1D), (8, 0x1B)), ((3, 5), (8, 0x1D)),
    ((16, 0x2D), (8, 0x1D)), ((61, 0x27), (128, 0x87)), ((128, 0x87), (128, 0x87)),
]


def value_at(modulus, polynomial, point):
    """The value of a polynomial over GF(2) at a point of a field."""
    powers = (definitions.chosen_power(modulus, point, i) for i in range(polynomial.bit_length()) if polynomial >> i & 1)
    return definitions.total(powers)


def rows(draw):
    """Calls: the function, its values, how many elements there are, and the status where it is not BF_OK."""
    for (degree, tail), (width, other) in PAIRS:
        source, target = definitions.field_words(degree, tail), definitions.field_words(width, other)
        values = [0, 1, (1 << degree) - 1] + [draw.getrandbits(degree) for _ in range(6)]
        none = [0] * len(values)
        # So many words go by tables.
        many = [draw.getrandbits(degree) for _ in range(256 // degree + 3)]
        if width % degree:
            yield "field_embedding", (source, target, [0]), None, "BF_UNSOLVABLE"
        elif degree == 1:
            yield "field_embedding", (source, target, [tail]), None, None
        for root in range(1 << width) if width <= 8 else (0, 1, 2):
            if value_at(1 << width | other, 1 << degree | tail, root):
                yield "field_embed", (source, target, root, values, none), None, "BF_UNSOLVABLE"
            else:
                for words, each in ((values, len(values)), (many, None)):
                    yield "field_embed", (source, target, root, words, [value_at(1 << width | other, it, root) for it in words]), each, None
