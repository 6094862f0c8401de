"""The fields, each a class of arrays. Written by scripts/make_bindings.py; do not edit."""

from ._arrays import FieldArray


class Gf2(FieldArray):
    """Arrays over GF(2).

    `Gf2(x)` makes one of integers from 0 to 2**1 - 1, which are representations, of texts of hexadecimal digits, of nested lists of
    them, of integers of numpy, and of elements of a field that this one contains or is isomorphic to.
    """

    __slots__ = ()
    degree = 1
    _name = "gf2"
    _word = "u8"


class BinaryField2(FieldArray):
    """Arrays over GF(2^2), a level of the tower.

    `BinaryField2(x)` makes one of integers from 0 to 2**2 - 1, which are representations, of texts of hexadecimal digits, of nested
    lists of them, of integers of numpy, and of elements of a field that this one contains or is isomorphic to.
    """

    __slots__ = ()
    degree = 2
    _name = "t2"
    _word = "u8"


class BinaryField4(FieldArray):
    """Arrays over GF(2^4), a level of the tower.

    `BinaryField4(x)` makes one of integers from 0 to 2**4 - 1, which are representations, of texts of hexadecimal digits, of nested
    lists of them, of integers of numpy, and of elements of a field that this one contains or is isomorphic to.
    """

    __slots__ = ()
    degree = 4
    _name = "t4"
    _word = "u8"


class BinaryField8(FieldArray):
    """Arrays over GF(2^8), a level of the tower.

    `BinaryField8(x)` makes one of integers from 0 to 2**8 - 1, which are representations, of texts of hexadecimal digits, of nested
    lists of them, of integers of numpy, and of elements of a field that this one contains or is isomorphic to.
    """

    __slots__ = ()
    degree = 8
    _name = "t8"
    _word = "u8"
    _partner = "r8"


class BinaryField16(FieldArray):
    """Arrays over GF(2^16), a level of the tower.

    `BinaryField16(x)` makes one of integers from 0 to 2**16 - 1, which are representations, of texts of hexadecimal digits, of nested
    lists of them, of integers of numpy, and of elements of a field that this one contains or is isomorphic to.
    """

    __slots__ = ()
    degree = 16
    _name = "t16"
    _word = "u16"


class BinaryField32(FieldArray):
    """Arrays over GF(2^32), a level of the tower.

    `BinaryField32(x)` makes one of integers from 0 to 2**32 - 1, which are representations, of texts of hexadecimal digits, of nested
    lists of them, of integers of numpy, and of elements of a field that this one contains or is isomorphic to.
    """

    __slots__ = ()
    degree = 32
    _name = "t32"
    _word = "u32"


class BinaryField64(FieldArray):
    """Arrays over GF(2^64), a level of the tower.

    `BinaryField64(x)` makes one of integers from 0 to 2**64 - 1, which are representations, of texts of hexadecimal digits, of nested
    lists of them, of integers of numpy, and of elements of a field that this one contains or is isomorphic to.
    """

    __slots__ = ()
    degree = 64
    _name = "t64"
    _word = "u64"
    _partner = "p64"


class BinaryField128(FieldArray):
    """Arrays over GF(2^128), a level of the tower.

    `BinaryField128(x)` makes one of integers from 0 to 2**128 - 1, which are representations, of texts of hexadecimal digits, of
    nested lists of them, of integers of numpy, and of elements of a field that this one contains or is isomorphic to.
    """

    __slots__ = ()
    degree = 128
    _name = "t128"
    _word = "u128"
    _partner = "g128"


class Rijndael8b(FieldArray):
    """Arrays over GF(2)[x] modulo x^8 + x^4 + x^3 + x + 1, the bytes of AES (FIPS 197).

    `Rijndael8b(x)` makes one of integers from 0 to 2**8 - 1, which are representations, of texts of hexadecimal digits, of nested
    lists of them, of integers of numpy, and of elements of a field that this one contains or is isomorphic to.
    """

    __slots__ = ()
    degree = 8
    _name = "r8"
    _word = "u8"
    _partner = "t8"


class Poly64(FieldArray):
    """Arrays over GF(2)[x] modulo x^64 + x^4 + x^3 + x + 1.

    `Poly64(x)` makes one of integers from 0 to 2**64 - 1, which are representations, of texts of hexadecimal digits, of nested lists
    of them, of integers of numpy, and of elements of a field that this one contains or is isomorphic to.
    """

    __slots__ = ()
    degree = 64
    _name = "p64"
    _word = "u64"
    _partner = "t64"
    _is_batched = True


class Ghash128(FieldArray):
    """Arrays over GF(2)[x] modulo x^128 + x^7 + x^2 + x + 1, the field of GHASH (NIST SP 800-38D), bit i for x^i.

    `Ghash128(x)` makes one of integers from 0 to 2**128 - 1, which are representations, of texts of hexadecimal digits, of nested
    lists of them, of integers of numpy, and of elements of a field that this one contains or is isomorphic to.
    """

    __slots__ = ()
    degree = 128
    _name = "g128"
    _word = "u128"
    _partner = "t128"
    _is_batched = True


class Poly192(FieldArray):
    """Arrays over GF(2^64)[y] modulo y^3 + y + 1 over p64, the coefficient of 1 first.

    `Poly192(x)` makes one of integers from 0 to 2**192 - 1, which are representations, of texts of hexadecimal digits, of nested
    lists of them, of integers of numpy, and of elements of a field that this one contains or is isomorphic to.
    """

    __slots__ = ()
    degree = 192
    _name = "p192"
    _word = "u192"
