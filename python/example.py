"""What the package does, step by step. Its output is stored in example.out, and scripts/test-library compares it.

PYTHONPATH=python BINARY_FIELD_LIBRARY=FOLDER/lib python3 python/example.py
"""

from typing import Any, Callable

import numpy as np

import binary_field as bf


def show(title: str, *values: Any) -> None:
    """Prints a line."""
    print(f"{title}:", *values)


# %% A field is a class of arrays. An element is an unsigned number, and a sum is the exclusive or.
F = bf.Ghash128
a = F([1, 2, 0x87, 1 << 127])
b = F.random(4, seed=1)
show("a", a)
show("b", b)
show("a + a", a + a)
show("a * 2", a * F(2))
show("(a * b) / b == a", (a * b) / b == a)
show("a ** (2**128 - 1)", a ** (F.order - 1))

# %% numpy's functions are those of the field, and its views are views.
show("np.sqrt(a)", np.sqrt(a))
show("np.dot(a, b) == sum", bool(np.dot(a, b) == np.sum(a * b)))
m = a.reshape(2, 2)
show("sums of columns", m.sum(axis=0))
show("a transpose", m.T)
m[1][0] = 5
m[1] += F(1)
show("a after that", a)

# %% The tower, and the isomorphism with a polynomial basis.
x = bf.BinaryField128([0x10, 1 << 64])
show("in the tower", x * x)
show("in the other basis", x.to(F))
show("one field", bool(((x * x).to(F) == x.to(F) * x.to(F)).all()))

# %% A polynomial's values: the constant coefficient comes first.
show("5 + x at 2", bf.BinaryField8.evaluate([5, 1], [2]))

# %% Sharing a secret among five, any three of whom find it again.
secret = bf.BinaryField64(0x0123456789ABCDEF)
polynomial = np.concatenate([secret.reshape(1), bf.BinaryField64.random(2, seed=2)])
places = bf.BinaryField64([1, 2, 3, 4, 5])
shares = bf.BinaryField64.evaluate(polynomial, places)


def interpolated_at_0(places: bf.BinaryField64, shares: bf.BinaryField64) -> bf.BinaryField64:
    """The value at 0 of the polynomial through these points, by Lagrange's formula."""
    total = bf.BinaryField64(0)
    for i in range(len(places)):
        others = places[[j for j in range(len(places)) if j != i]]
        total = total + shares[i] * (others / (others + places[i])).prod()
    return total


show("shares", shares)
show("from shares 1, 3 and 5", interpolated_at_0(places[::2], shares[::2]))

# %% The additive transform: 2^m values of a polynomial of 2^m coefficients at once, and back.
coefficients = F.random(1 << 12, seed=3)
values = bf.transform(coefficients)
show("first points", bf.transform_points(4))
show("back", bool((bf.inverse_transform(values) == coefficients).all()))
powers = F([5, 1, 0, 2])
show("of powers of x", bool((bf.transform(bf.from_powers(powers)) == F.evaluate(powers, bf.transform_points(4))).all()))

# %% Hashes of authentication tags: test case 2 of the specification of GCM.
show("GHASH", bf.gcm_ghash(bytes.fromhex("66e94bd4ef8a2c3b884cfa59ca342b2e"), b"", bytes.fromhex("0388dace60b6a392f328c2b971b2fe78")).hex())

# %% Reed-Solomon codes: any four of six shards are enough.
code = bf.ReedSolomon(data=4, parity=2)
shards = code.encode([b"any ", b"four", b" are", b" it."])
lost = [None, shards[1], None, shards[3], shards[4], shards[5]]
show("restored", code.reconstruct_data(lost).tobytes().decode())

# %% What does not fit is an exception with its reason.
attempts: list[Callable[[], Any]] = [lambda: a / 0, lambda: a * 3, lambda: F(1 << 128), lambda: a * F([1, 2]), lambda: bf.transform(a[:3])]
# mypy finds this one before it runs.
attempts.append(lambda: a + x)  # type: ignore[operator]
for attempt in attempts:
    try:
        attempt()
    except (ArithmeticError, TypeError, ValueError) as error:
        show(type(error).__name__, error)
