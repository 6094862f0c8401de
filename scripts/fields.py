"""The fields, a row each. The scripts that list fields read these rows, and write from them what other languages have:

    make_c_exports.py   the exported functions of crates/binary_field_c
    make_c_header.py    the header of C
    make_bindings.py    the functions and the fields of the Python package and of the Rust crate
    make-tables         the tables of bytes, of the changes of basis and of the power maps
    make_lines.py       the lines that the calculator is run on
    tests/              the definitions that every function of the library is compared with

What a crate says of the fields by hand is compared with the rows by `fields.py --check`: the names on the calculator's lines, and the
kernels of crates/c_calls.
"""

import dataclasses
import re
import sys

import files
import polynomials
import tower

# The version of the library and of the packages over it, as the file VERSION has it.
VERSION = tuple(map(int, (files.TOP / "VERSION").read_text(encoding="ascii").strip().split(".")))
VERSION_TEXT = ".".join(map(str, VERSION))
# As bf_version returns it.
VERSION_NUMBER = VERSION[0] << 16 | VERSION[1] << 8 | VERSION[2]


@dataclasses.dataclass(frozen=True)
class Field:
    """A field by its names, by how the library stores an element, and by its product."""

    # The name in C and on the calculator's lines, and that of the type in Rattle, Rust and Python.
    name: str
    type_name: str
    # How many bits an element has, the word that holds it (c_library.WORDS), and what the field is.
    bits: int
    word: str
    about: str
    # The generator of the multiplicative group that the library names.
    generator: int
    # The kernel that computes in the field, as crates/c_calls names it, and the field in contracts.
    kernel: str
    contract: str
    # The level of the tower, or the modulus and the images of the tower's roots; the cubic extension has neither.
    level: int | None = None
    modulus: int | None = None
    root_images: tuple[int, ...] = ()
    # The first part of the names of the modulus and of the images in contracts.
    basis: str = ""
    # Whether inverses one by one cost more than three products an element, and whether squares and roots are looked up by bytes,
    # so that a loop over them takes two elements in a turn.
    is_batched: bool = False
    is_looked_up: bool = False

    @property
    def one(self):
        """The words of the element 1, the lowest first."""
        return [1] + [0] * (self.bits // 64 - 1)

    @property
    def is_transformed(self):
        """Whether the library has the additive transform over the field as a level of the tower."""
        return self.level is not None and self.bits >= 16

    @property
    def partner(self):
        """The isomorphic field in the other basis, if the library changes between the two."""
        if self.modulus:
            return next(it for it in FIELDS if it.level is not None and it.bits == self.bits)
        return next((it for it in FIELDS if it.modulus and self.level is not None and it.bits == self.bits), None)

    @property
    def columns(self):
        """The images, in a polynomial basis, of the bits of the level of the tower with as many bits: each the product of the images
        of the roots over the set bits of its place."""
        columns = [1]
        for image in self.root_images:
            columns += [polynomials.multiply(self.modulus, column, image) for column in columns]
        return columns

    def multiply(self, a, b):
        """The product: in the tower by halves, else modulo the field's polynomial."""
        if self.modulus:
            return polynomials.multiply(self.modulus, a, b)
        return tower.multiply(self.level, a, b) if self.level is not None else self.cubic_product(a, b)

    @staticmethod
    def cubic_product(a, b):
        """The product over p64, with y^3 = y + 1 and y^4 = y^2 + y."""
        parts, mask, below = [0] * 5, (1 << 64) - 1, field_named("p64")
        for i in range(3):
            for j in range(3):
                parts[i + j] ^= below.multiply(a >> 64 * i & mask, b >> 64 * j & mask)
        for i in (4, 3):
            parts[i - 2] ^= parts[i]
            parts[i - 3] ^= parts[i]
        return parts[0] | parts[1] << 64 | parts[2] << 128


def tower_level(level, word, generator, **more):
    """A level of the tower above the lowest one."""
    bits = 1 << level
    row = {
        "name": f"t{bits}", "type_name": f"BinaryField{bits}", "about": f"GF(2^{bits}), a level of the tower", "kernel": f"Tower<Bits{bits}>",
        "contract": f"level_field {level}",
    }
    return Field(bits=bits, word=word, generator=generator, level=level, **row | more)


def modulo(modulus, more_words, **more):
    """The polynomials modulo one, with what follows that in the description."""
    return Field(bits=modulus.bit_length() - 1, modulus=modulus, about=f"GF(2)[x] modulo {polynomials.text(modulus)}{more_words}", **more)


FIELDS = [
    tower_level(0, "u8", 1, name="gf2", type_name="Gf2", about="GF(2)"),
    tower_level(1, "u8", 2),
    tower_level(2, "u8", 5),
    tower_level(3, "u8", 0x13),
    tower_level(4, "u16", 0x102, is_looked_up=True),
    tower_level(5, "u32", 0x1_0005, is_looked_up=True),
    tower_level(6, "u64", 0x1_0000_0004),
    tower_level(7, "u128", 0x1_0000_0000_0000_0005, contract="wide_level_field"),
    modulo(
        0x11B, ", the bytes of AES (FIPS 197)", name="r8", type_name="Rijndael8b", word="u8", generator=0x88,
        kernel="RijndaelKernel", contract="rijndael_field", basis="aes", root_images=(0xBC, 0x0C, 0x35),
    ),
    modulo(
        1 << 64 | 0x1B, "", name="p64", type_name="Poly64", word="u64", generator=0xC313_D8D1_BFAE_2150,
        kernel="Poly64Kernel", contract="poly64_field", basis="poly64", is_batched=True,
        root_images=(
            0x19C9369F278ADC03, 0xFC39A481A127AA9D, 0xAE4AB74040E79118, 0xED58CAFEF8F22BC9, 0xEA6B20D915FDBB77, 0x3F2A7C501E898BCD,
        ),
    ),
    modulo(
        1 << 128 | 0x87, ", the field of GHASH (NIST SP 800-38D), bit i for x^i", name="g128", type_name="Ghash128", word="u128",
        generator=0xE5A5_755A_D217_F07D_1DA7_0A74_7203_D630, kernel="GhashKernel", contract="ghash_field", basis="ghash", is_batched=True,
        root_images=(
            0x295AC0B1F4731AF9676AAC9FA4B20B08, 0x7959D70CE1EE694253B85B6402B1E849, 0x6CFE46E8277B2E9DF1677BC1710C5C54,
            0xD7483FDAE7763B6FF501C92B7A41CC34, 0x681C6A8C36792C0292D6DAD772F92DF5, 0x496CB27FA3EBE72895960776EF42F90B,
            0x9CFCA25633F9993F4E1F511070B23E78,
        ),
    ),
    Field(
        "p192", "Poly192", 192, "u192", "GF(2^64)[y] modulo y^3 + y + 1 over p64, the coefficient of 1 first", 5 | 3 << 64 | 1 << 128,
        kernel="CubicKernel", contract="cubic_field",
    ),
]


def field_named(name):
    """The field with a name."""
    return next(it for it in FIELDS if it.name == name)


def wrong_names():
    """What crates say by hand of the fields and is not as the rows have it."""
    names = [it.name for it in FIELDS]
    for path, pattern in (
        ("crates/calculator/src/line.rt", r'^ +b"(\w+)" => '),
        ("crates/calculator/specs/Fields.antt", r'\(codes "(\w+)", '),
    ):
        found = re.findall(pattern, (files.TOP / path).read_text(encoding="utf-8"), re.MULTILINE)
        if found != names:
            yield f"{path} has the fields {', '.join(found)}, and the rows {', '.join(names)}"
    kernels = (files.CRATES / "c_calls/src/lib.rt").read_text(encoding="utf-8")
    for it in FIELDS:
        for name in re.findall(r"\w+", it.kernel):
            if not re.search(rf"^pub use .*?\b{name}\b.*?;", kernels, re.MULTILINE | re.DOTALL):
                yield f"crates/c_calls has no {name}, of the kernel of {it.name}"
        if it.generator >> it.bits:
            yield f"the generator of {it.name} is no element"


if __name__ == "__main__":
    sys.exit("\n".join(wrong_names()) or None)
