"""Draws the stages of an additive transform, and compares what the last one leaves with the library's transform.

PYTHONPATH=python BINARY_FIELD_LIBRARY=FOLDER/lib python3 python/example_stages.py stages.svg

A row of the picture is what is in the places behind a stage: the first row is one coefficient, the last one the values of its polynomial at
all points. A place is white where it has 0, and else as dark as its element has bits. It needs matplotlib (Debian: python3-matplotlib).
"""

import importlib
import sys
from typing import Any

import numpy as np

import binary_field as bf

SIZE = 64


def stages(coefficients: bf.Ghash128) -> bf.Ghash128:
    """The places before the first stage and behind each, a row each. Stage j, from the last to the first, goes over pairs of places that are
    2**j apart: the lower gets the upper times s_j of the first point of their block, and the upper then the lower."""
    count = len(coefficients).bit_length() - 1
    # s_j at all points, by s_0(x) = x and s_(j+1)(x) = s_j(x)**2 + s_j(x).
    factors = [bf.transform_points(len(coefficients))]
    while len(factors) < count:
        factors.append(factors[-1].square() + factors[-1])
    places = coefficients.copy()
    rows = [places.copy()]
    for j in reversed(range(count)):
        blocks = places.reshape(-1, 2, 1 << j)
        blocks[:, 0] += factors[j].reshape(-1, 2 << j)[:, :1] * blocks[:, 1]
        blocks[:, 1] += blocks[:, 0]
        rows.append(places.copy())
    return bf.Ghash128(np.stack(rows))


def main() -> int:
    """Writes the picture; the exit status is 1 where the stages are not the library's transform."""
    coefficients = bf.Ghash128.zeros(SIZE)
    coefficients[37] = 1
    rows = stages(coefficients)
    is_same = bool((rows[-1] == bf.transform(coefficients)).all())
    bits = np.array([[it.bit_count() for it in row] for row in rows.tolist()])
    matplotlib: Any = importlib.import_module("matplotlib")
    matplotlib.use("svg")
    pyplot: Any = importlib.import_module("matplotlib.pyplot")
    figure, axes = pyplot.subplots(figsize=(8, 2), constrained_layout=True)
    axes.imshow(np.sqrt(bits), cmap="Blues", aspect="auto", interpolation="nearest")
    axes.set_yticks(range(len(rows)), ["coefficients", *(f"behind stage {j}" for j in reversed(range(len(rows) - 1)))])
    axes.set_xlabel("place")
    axes.set_title("Coefficient 37 of 64: the product of s_0, s_2 and s_5 at all points")
    figure.savefig(sys.argv[1] if len(sys.argv) > 1 else "stages.svg", metadata={"Date": None})
    print("the stages are the library's transform:", is_same)
    return 0 if is_same else 1


if __name__ == "__main__":
    sys.exit(main())
