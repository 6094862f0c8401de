"""Binary fields, computed by a library whose functions are proved.

>>> import binary_field as bf
>>> F = bf.Rijndael8b
>>> a, b = F([1, 2, 3]), F([5, 0x53, 7])
>>> a * b + 1 / a
Rijndael8b([0x4, 0x2b, 0xff])
>>> bf.Poly.Roots(a)
Poly(x^3 + 0x7*x + 0x6, Rijndael8b)

Trusted and not proved are this package, numpy, ctypes, and the C compiler and linker that made the shared library.
"""

import sys as _sys

import numpy as _np

# What numpy's functions are over elements comes into its tables where these modules are read.
from . import _numpy as _numpy
from . import _orders as _orders
from . import _products as _products
from . import _sums as _sums
from ._arrays import FieldArray
from ._bch import BCH
from ._bytes import (
    Ghash,
    Polyval,
    PreparedReconstruct,
    ReedSolomon,
    TransformCode,
    answer,
    gcm_ghash,
    ghash,
    polyval,
    tags_are_equal,
)
from ._chosen import GF
from ._codes import CorrectingCode
from ._fields import (
    BinaryField2,
    BinaryField4,
    BinaryField8,
    BinaryField16,
    BinaryField32,
    BinaryField64,
    BinaryField128,
    Gf2,
    Ghash128,
    Poly64,
    Poly192,
    Rijndael8b,
)
from ._functions import VERSION_TEXT as __version__
from ._hardware import hardware
from ._library import processor
from ._poly import Poly, conway_poly, crt, egcd, gcd, irreducible_poly, lagrange_poly, lcm, primitive_poly
from ._secrets import combine_secret, correct_secret, split_secret
from ._transforms import (
    butterfly_forward,
    butterfly_inverse,
    from_powers,
    inverse_transform,
    linear_map,
    low_stages,
    to_powers,
    transform,
    transform_points,
)
from ._workers import get_workers, set_workers

# The examples in the texts of a module name the package, and numpy, which plain doctest looks up in the module.
for _module in [it for name, it in _sys.modules.items() if name.startswith(f"{__name__}._")]:
    vars(_module).update(bf=_sys.modules[__name__], np=_np)

__all__ = [
    "BCH", "BinaryField128", "BinaryField16", "BinaryField2", "BinaryField32", "BinaryField4", "BinaryField64",
    "BinaryField8", "CorrectingCode", "FieldArray", "GF", "Gf2", "Ghash", "Ghash128", "Poly", "Poly192", "Poly64",
    "Polyval", "PreparedReconstruct", "ReedSolomon", "Rijndael8b", "TransformCode", "answer", "butterfly_forward", "butterfly_inverse",
    "combine_secret", "conway_poly", "correct_secret", "crt", "egcd", "from_powers", "gcd", "gcm_ghash", "get_workers", "ghash",
    "hardware", "inverse_transform", "irreducible_poly", "lagrange_poly", "lcm", "linear_map", "low_stages",
    "polyval", "primitive_poly", "processor", "set_workers", "split_secret", "tags_are_equal", "to_powers",
    "transform", "transform_points",
]
