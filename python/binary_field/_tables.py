"""Texts on a field for people: its properties, and tables of its elements and of their sums and products."""

from __future__ import annotations

import operator
from typing import Any, Callable, Sequence

# A field of more bits has too many elements for a table of them.
_MOST_BITS = 8
_OPERATIONS: dict[str, Callable[[Any, Any], Any]] = {
    "+": operator.add, "-": operator.sub, "*": operator.mul, "/": operator.truediv,
}
_ORDERS = ("power", "int")


def properties(field: Any) -> str:
    """The name, the numbers and the modulus of a field, a line each."""
    try:
        modulus = f"{field.irreducible_poly}"
    except AttributeError:
        modulus = "none, as elements are no polynomials modulo one"
    rows = [
        ("name", f"GF(2^{field.degree})"), ("class", field.__name__), ("characteristic", 2), ("degree", field.degree),
        ("order", field.order), ("irreducible_poly", modulus), ("primitive_element", field.primitive_element),
    ]
    return "\n".join(["Galois field:", *(f"  {name}: {value}" for name, value in rows)])


def _laid_out(rows: Sequence[Sequence[str]]) -> str:
    """Columns of texts, each to the right, with a line below the first row."""
    widths = [max(map(len, column)) for column in zip(*rows)]
    lines = ["  ".join(it.rjust(width) for it, width in zip(row, widths)) for row in rows]
    return "\n".join([lines[0], "  ".join("-" * width for width in widths), *lines[1:]])


def _small(field: Any) -> Any:
    if field.degree > _MOST_BITS:
        raise ValueError(f"{field.__name__} has too many elements for a table of them: 2**{field.degree}")
    return field.elements


def of_elements(field: Any, element: Any = None, sort: str = "power") -> str:
    """Each element as a power, as a polynomial where elements are such, as a vector and as a number."""
    if sort not in _ORDERS:
        raise ValueError(f"a table of elements is sorted by one of {', '.join(_ORDERS)}")
    elements = _small(field)
    base = field.primitive_element if element is None else field._single(element)
    if not field.is_primitive_element(base):
        raise ValueError(f"{base} is no primitive element of {field.__name__}")
    powers = {int(it): at for at, it in enumerate(base ** list(range(field.order - 1)))}
    numbers = [0, *powers] if sort == "power" else elements.tolist()
    kinds = ["Power", *(["Polynomial"] if field._has_polynomials() else []), "Vector", "Integer"]
    rows = [kinds]
    for number in numbers:
        it = field(number)
        polynomial = [f"{it:p}"] if "Polynomial" in kinds else []
        vector = f"[{', '.join(map(str, it.vector().tolist()))}]"
        rows.append([f"({base})^{powers[number]}" if number else "0", *polynomial, vector, f"{number:#x}"])
    return _laid_out(rows)


def of_operation(field: Any, operation: str, x: Any = None, y: Any = None) -> str:
    """What an operator makes of each element of one array with each of another."""
    if operation not in _OPERATIONS:
        raise ValueError(f"an operation is one of {' '.join(_OPERATIONS)}")
    left = _small(field) if x is None else field._operand(x)
    right = (field.units if operation == "/" else _small(field)) if y is None else field._operand(y)
    if left.ndim != 1 or right.ndim != 1:
        raise ValueError("the elements of a table must have one dimension")
    values = _OPERATIONS[operation](left.reshape(-1, 1), right)
    rows = [[f"x {operation} y |", *map(str, right)]]
    rows += [[f"{it} |", *map(str, row)] for it, row in zip(left, values)]
    return _laid_out(rows)
