"""The types that mypy sees of calls of the Python package: checked by mypy, and run by nobody."""

from __future__ import annotations

from typing import Any

import numpy as np
from typing_extensions import assert_type

import binary_field as bf

F = bf.Rijndael8b
a = F([[1, 2], [3, 4]])
wide = bf.BinaryField32.random(4, seed=1)

assert_type(a * a + 1, bf.Rijndael8b)
assert_type(a @ a, bf.Rijndael8b)
assert_type(a[0], bf.Rijndael8b)
assert_type(a.inv(), bf.Rijndael8b)
assert_type(a.det(), bf.Rijndael8b)
assert_type(a.sum(axis=0), bf.Rijndael8b)
assert_type(a.prod(), bf.Rijndael8b)
assert_type(a.permuted(1), bf.Rijndael8b)
assert_type(a.to(bf.Ghash128), bf.Ghash128)
assert_type(F.elements, bf.Rijndael8b)
assert_type(F.units, bf.Rijndael8b)
assert_type(F.primitive_elements, bf.Rijndael8b)
assert_type(F.primitive_element, bf.Rijndael8b)
assert_type(F.properties, str)
assert_type(F.Random(3), bf.Rijndael8b)
assert_type(F.Range(3), bf.Rijndael8b)
assert_type(F.range(3), bf.Rijndael8b)
assert_type(F.Zeros(3), bf.Rijndael8b)
assert_type(F.Ones(3), bf.Rijndael8b)
assert_type(F.identity(3), bf.Rijndael8b)
assert_type(F.Identity(3), bf.Rijndael8b)
assert_type(bf.transform([1, 2]), bf.Ghash128)
assert_type(bf.transform(wide), bf.BinaryField32)
assert_type(bf.inverse_transform(wide), bf.BinaryField32)
assert_type(bf.transform_points(4), bf.Ghash128)
assert_type(bf.transform_points(4, wide[0]), bf.BinaryField32)
assert_type(bf.from_powers(wide), bf.BinaryField32)
assert_type(bf.Poly.Roots(a[0]).is_primitive(), bool)
assert_type(bf.ReedSolomon(data=2, parity=1).encode([b"ab", b"cd"]), "np.ndarray[Any, Any]")
