"""The Cantor vectors of the tower: vector 0 is 1, and v^2 + v of each other vector v is the one before. Of the two solutions, which
differ by 1, the even one is taken."""

import tower

LEVEL = 7
BITS = 1 << LEVEL


def reduced_images():
    """The images of the powers of two under x^2 + x in echelon form, each with its highest bit and the element it is of."""
    rows = []
    for place in range(BITS):
        element = 1 << place
        image = tower.square(LEVEL, element) ^ element
        for top, row_image, row_element in rows:
            if image >> top & 1:
                image ^= row_image
                element ^= row_element
        if image:
            rows.append((image.bit_length() - 1, image, element))
    return rows


def even_solution(rows, value):
    """The even x with x^2 + x = value."""
    solution = 0
    for top, image, element in rows:
        if value >> top & 1:
            value ^= image
            solution ^= element
    assert value == 0, "x^2 + x takes only half of all values"
    return solution & ~1


def vectors():
    """All vectors."""
    rows, found = reduced_images(), [1]
    while len(found) < BITS:
        found.append(even_solution(rows, found[-1]))
    return found
