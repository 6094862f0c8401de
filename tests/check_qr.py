"""Exchanges QR codes with qrencode and zbarimg: words of their blocks by the Python package's codes.

    check_qr.py

Symbols that qrencode draws are read module by module, and their parity is what `CorrectingCode.qr` writes behind the data. Modules are then
damaged, as many symbols of each block as its code corrects; what is corrected is drawn again, and zbarimg reads the text that qrencode was
given. The layout of a symbol is that of ISO/IEC 18004, sections 7.3 to 7.9, up to version 6, without numbers of versions.
"""

import pathlib
import random
import subprocess
import tempfile
import unittest

import binary_field as bf
import numpy as np

# Versions and levels: the symbols and the symbols of data of a block, and how many blocks there are (table 9).
SYMBOLS = {
    (1, "L"): (26, 19, 1), (1, "H"): (26, 9, 1), (2, "M"): (44, 28, 1), (3, "Q"): (35, 17, 2), (4, "H"): (25, 9, 4), (5, "L"): (134, 108, 1),
    (6, "L"): (86, 68, 2), (6, "M"): (43, 27, 4),
}
MASKS = [
    lambda i, j: (i + j) % 2,
    lambda i, j: i % 2,
    lambda i, j: j % 3,
    lambda i, j: (i + j) % 3,
    lambda i, j: (i // 2 + j // 3) % 2,
    lambda i, j: i * j % 2 + i * j % 3,
    lambda i, j: (i * j % 2 + i * j % 3) % 2,
    lambda i, j: ((i + j) % 2 + i * j % 3) % 2,
]
FORMAT_MASK = 0x5412
QUIET, SCALE = 4, 4


def drawn(version, level, text):
    """The modules of the symbol that qrencode draws, 1 for a dark one."""
    words = ["qrencode", "-v", str(version), "-l", level, "--strict-version", "-8", "-t", "ASCII", "-m", "0", "-o", "-", text]
    lines = subprocess.run(words, capture_output=True, text=True, check=True).stdout.splitlines()
    return np.array([[it == "#" for it in line[::2].ljust(17 + 4 * version)] for line in lines], np.uint8)


def read(modules):
    """The text that zbarimg reads in modules."""
    light = np.pad(1 - modules, QUIET, constant_values=1).repeat(SCALE, 0).repeat(SCALE, 1) * 255
    with tempfile.TemporaryDirectory() as folder:
        path = pathlib.Path(folder, "symbol.pgm")
        path.write_bytes(b"P5 %d %d 255\n" % light.shape[::-1] + light.astype(np.uint8).tobytes())
        return subprocess.run(["zbarimg", "-q", "--raw", path], capture_output=True, text=True, check=False).stdout.rstrip("\n")


def is_pattern(size, i, j):
    """Whether a module belongs to the patterns by which a symbol is found, or to its format."""
    corner = (i < 9 and (j < 9 or j >= size - 8)) or (i >= size - 8 and j < 9)
    aligned = size > 21 and abs(i - (size - 7)) <= 2 and abs(j - (size - 7)) <= 2
    return corner or aligned or 6 in (i, j)


def places(size):
    """The places of the bits of the symbols, in their order: two columns up, two columns down, from the right."""
    column, up = size - 1, True
    while column > 0:
        column -= column == 6
        for row in range(size - 1, -1, -1) if up else range(size):
            yield from ((row, it) for it in (column, column - 1) if not is_pattern(size, row, it))
        column, up = column - 2, not up


def mask_of(modules):
    """The mask that the format names."""
    bits = [*((8, it) for it in (0, 1, 2, 3, 4, 5, 7, 8)), (7, 8), *((it, 8) for it in range(5, -1, -1))]
    number = int("".join(str(modules[it]) for it in bits), 2)
    return MASKS[(number ^ FORMAT_MASK) >> 10 & 7]


def blocks_of(modules, shape):
    """The words of the blocks of a symbol: their symbols take turns, those of data first."""
    symbols, data, count = shape
    mask, all_places = mask_of(modules), list(places(len(modules)))
    bits = np.array([modules[it] ^ (mask(*it) == 0) for it in all_places[: 8 * symbols * count]], np.uint8)
    turns = np.packbits(bits)
    return np.concatenate([turns[: data * count].reshape(data, count), turns[data * count :].reshape(symbols - data, count)]).T.copy()


def with_blocks(modules, words):
    """The symbol with these words in its blocks."""
    mask, result = mask_of(modules), modules.copy()
    for place, bit in zip(places(len(modules)), np.unpackbits(words.T.ravel())):
        result[place] = bit ^ (mask(*place) == 0)
    return result


class Symbols(unittest.TestCase):
    """QR codes of several versions and levels."""

    def each(self):
        draw = random.Random(18004)
        for (version, level), shape in SYMBOLS.items():
            text = "".join(draw.choice("abcdefghijklmnopqrstuvwxyz 0123456789") for _ in range(shape[1] * shape[2] - 3)).strip()
            modules = drawn(version, level, text)
            yield draw, text, modules, shape, blocks_of(modules, shape), bf.CorrectingCode.qr(*shape[:2])

    def test_parity_is_that_of_qrencode(self):
        for _, text, modules, shape, words, code in self.each():
            self.assertEqual(code.encode(words[:, : shape[1]]).tolist(), words.tolist())
            self.assertFalse(code.detect(words).any())
            np.testing.assert_array_equal(with_blocks(modules, words), modules)
            self.assertEqual(read(modules), text)

    def test_damaged_symbols_are_read(self):
        for draw, text, modules, shape, words, code in self.each():
            damaged = words.copy()
            for word in damaged:
                for place in draw.sample(range(shape[0]), code.t):
                    word[place] ^= draw.randrange(1, 256)
            seen = blocks_of(with_blocks(modules, damaged), shape)
            corrected, counts = code.decode(seen, output="codeword", errors=True)
            self.assertEqual(corrected.tolist(), words.tolist())
            self.assertEqual(counts.tolist(), [code.t] * shape[2])
            self.assertEqual(read(with_blocks(modules, corrected)), text)

    def test_what_is_damaged_more_is_no_other_symbol(self):
        for draw, _, _, shape, words, code in self.each():
            damaged = words.copy()
            for word in damaged:
                for place in draw.sample(range(shape[0]), code.t + 1):
                    word[place] ^= draw.randrange(1, 256)
            corrected, counts = code.decode(damaged, output="codeword", errors=True)
            for before, after, count in zip(damaged, corrected, counts):
                # Another word of the code may be as near; else the word stays.
                self.assertEqual((before != after).sum(), max(count, 0))
                self.assertTrue(count == -1 or (count <= code.t and not code.detect(after)))


if __name__ == "__main__":
    unittest.main()
