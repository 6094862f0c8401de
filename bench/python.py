"""Times the Python package beside code of numpy by tables, as one writes it by hand: python.py [COUNT] [SAMPLES].

    scripts/build-library build && PYTHONPATH=python BINARY_FIELD_LIBRARY=build/lib python3 bench/python.py

It prints by which form of the library (BINARY_FIELD_PROCESSOR=x86-64-v2 in the environment lowers it), and nanoseconds a product over
arrays of COUNT elements (a million), the least of SAMPLES samples (7), the two sides by turns, and whether both computed the same; then
microseconds of calls of one element, milliseconds of matrices and of transforms, and how fast words of a code are decoded. By hand, a
product of 8 bits is one look-up in a table of all products, one of 16 bits goes by logarithms, and a wider one by Karatsuba's rule down to
those, in polynomial bases down to a table of carryless products of bytes.
"""

import sys
import time

import numpy as np

import binary_field as bf

COUNT = int(sys.argv[1]) if len(sys.argv) > 1 else 1_000_000
SAMPLES = int(sys.argv[2]) if len(sys.argv) > 2 else 7


def least(calls):
    """The least time of each call, in seconds; the calls take turns."""
    times = [float("inf")] * len(calls)
    for _ in range(SAMPLES):
        for at, call in enumerate(calls):
            start = time.perf_counter()
            call()
            times[at] = min(times[at], time.perf_counter() - start)
    return times


# ---- by hand

BYTES = np.arange(256, dtype=np.uint8)


def all_products(field):
    """The table of the products of bytes in a field of 8 bits."""
    left, right = np.meshgrid(BYTES, BYTES, indexing="ij")
    return (field(left.ravel()) * field(right.ravel())).to_words()


def logarithms():
    """Powers and logarithms of the tower's field of 16 bits."""
    generator, power = bf.BinaryField16.primitive_element, bf.BinaryField16.ones(())
    powers = np.zeros(2 * 65535, np.uint16)
    for i in range(65535):
        powers[i] = powers[i + 65535] = int(power)
        power = power * generator
    logs = np.zeros(65536, np.int64)
    logs[powers[:65535]] = np.arange(65535)
    return powers, logs


def carryless_bytes():
    """The carryless products of bytes."""
    table = np.zeros((256, 256), np.uint64)
    for bit in range(8):
        table ^= np.where(BYTES[:, None] >> bit & 1, BYTES[None, :].astype(np.uint64) << np.uint64(bit), np.uint64(0))
    return table.ravel()


TOWER_8, AES, CARRYLESS = all_products(bf.BinaryField8), all_products(bf.Rijndael8b), carryless_bytes()
POWERS, LOGS = logarithms()
TYPES = {16: np.uint16, 32: np.uint32, 64: np.uint64}


def by_table(table):
    return lambda x, y: table[x.astype(np.int64) << 8 | y]


def tower(bits, x, y):
    """The product in the tower: low parts, high parts, and the sum of both, one level down."""
    if bits == 16:
        return np.where((x == 0) | (y == 0), np.uint16(0), POWERS[LOGS[x] + LOGS[y]])
    x_low, x_high, y_low, y_high = (it for pair in (split(bits, x), split(bits, y)) for it in pair)
    low, high = tower(bits // 2, x_low, y_low), tower(bits // 2, x_high, y_high)
    mixed = tower(bits // 2, x_low ^ x_high, y_low ^ y_high) ^ low ^ high
    return joined(bits, low ^ high, mixed ^ times_root(bits // 2, high))


def split(bits, x):
    if bits == 128:
        return x[:, 0], x[:, 1]
    half = TYPES[bits // 2]
    return x.astype(half), (x >> TYPES[bits](bits // 2)).astype(half)


def joined(bits, low, high):
    if bits == 128:
        return np.stack([low, high], axis=1)
    wide = TYPES[bits]
    return low.astype(wide) | high.astype(wide) << wide(bits // 2)


def times_root(bits, x):
    if bits == 16:
        return tower(16, x, np.full_like(x, 1 << 8))
    low, high = split(bits, x)
    return joined(bits, high, low ^ times_root(bits // 2, high))


def carryless(bits, x, y):
    """The carryless product of words of so many bits, in one word of 64 bits, or of 64 bits in two."""
    if bits == 8:
        return CARRYLESS[(x << np.uint64(8) | y).astype(np.int64)]
    half, mask = np.uint64(bits // 2), np.uint64((1 << bits // 2) - 1)
    x_low, x_high, y_low, y_high = x & mask, x >> half, y & mask, y >> half
    low, high = carryless(bits // 2, x_low, y_low), carryless(bits // 2, x_high, y_high)
    mixed = carryless(bits // 2, x_low ^ x_high, y_low ^ y_high) ^ low ^ high
    if bits == 64:
        return low ^ mixed << half, high ^ mixed >> half
    return low ^ mixed << half ^ high << np.uint64(bits)


def folded(high, tail):
    """A word of 64 bits times x^64, with x^64 = sum of x^t over the tail: the word below, and what spills above it."""
    low, spill = np.zeros_like(high), np.zeros_like(high)
    for t in tail:
        low ^= high << np.uint64(t)
        if t:
            spill ^= high >> np.uint64(64 - t)
    return low, spill


def poly64(x, y):
    low, high = carryless(64, x, y)
    more, spill = folded(high, (0, 1, 3, 4))
    return low ^ more ^ folded(spill, (0, 1, 3, 4))[0]


def ghash128(x, y):
    low = carryless(64, x[:, 0], y[:, 0])
    high = carryless(64, x[:, 1], y[:, 1])
    mixed = carryless(64, x[:, 0] ^ x[:, 1], y[:, 0] ^ y[:, 1])
    parts = [low[0], low[1] ^ mixed[0] ^ low[0] ^ high[0], high[0] ^ mixed[1] ^ low[1] ^ high[1], high[1]]
    tail = (0, 1, 2, 7)
    # The highest word first, since what spills out of its fold comes into the next.
    for at in (3, 2):
        more, spill = folded(parts[at], tail)
        parts[at - 2] = parts[at - 2] ^ more
        parts[at - 1] = parts[at - 1] ^ spill
    return np.stack(parts[:2], axis=1)


def poly192(x, y):
    a, b = [x[:, i] for i in range(3)], [y[:, i] for i in range(3)]
    p = [poly64(a[i], b[i]) for i in range(3)]
    q01, q02, q12 = (poly64(a[i] ^ a[j], b[i] ^ b[j]) for i, j in ((0, 1), (0, 2), (1, 2)))
    parts = [p[0], q01 ^ p[0] ^ p[1], q02 ^ p[0] ^ p[1] ^ p[2], q12 ^ p[1] ^ p[2], p[2]]
    return np.stack([parts[0] ^ parts[3], parts[1] ^ parts[3] ^ parts[4], parts[2] ^ parts[4]], axis=1)


BY_HAND = [
    (bf.BinaryField8, by_table(TOWER_8)),
    (bf.BinaryField16, lambda x, y: tower(16, x, y)),
    (bf.BinaryField32, lambda x, y: tower(32, x, y)),
    (bf.BinaryField64, lambda x, y: tower(64, x, y)),
    (bf.BinaryField128, lambda x, y: tower(128, x, y)),
    (bf.Rijndael8b, by_table(AES)),
    (bf.Poly64, poly64),
    (bf.Ghash128, ghash128),
    (bf.Poly192, poly192),
]


def main():
    """Prints the tables; the exit status is 1 where the sides differ."""
    differ = []
    print(f"The library for {bf.processor()}, numpy {np.__version__}, arrays of {COUNT} elements, the least of {SAMPLES} samples")
    print("| Product | Package, ns | numpy by tables, ns | Ratio |\n|---|---:|---:|---:|")
    for field, by_hand in BY_HAND:
        a, b = field.random(COUNT, seed=1), field.random(COUNT, seed=2)
        x, y = a.to_words(), b.to_words()
        ours, theirs = least([lambda: a * b, lambda: by_hand(x, y)])
        if not np.array_equal((a * b).to_words(), by_hand(x, y)):
            differ.append(field.__name__)
        print(f"| `{field.__name__}` | {ours / COUNT * 1e9:.2f} | {theirs / COUNT * 1e9:.1f} | {ours / theirs:.3f} |")
    print("\n| Call of one element | us |\n|---|---:|")
    for field in (bf.BinaryField8, bf.Ghash128):
        a, b, many = field(3), field(5), range(1000)
        for name, call in (("a * b", lambda: [a * b for _ in many]), ("a + b", lambda: [a + b for _ in many]), ("1 / a", lambda: [1 / a for _ in many])):
            print(f"| `{name}`, `{field.__name__}` | {least([call])[0] * 1e3:.2f} |")
    print("\n| Matrices of 100 rows and columns | product, ms | inverse, ms |\n|---|---:|---:|")
    for field in (bf.BinaryField8, bf.Rijndael8b, bf.BinaryField64, bf.Ghash128):
        a, b = field.random((100, 100), seed=1), field.random((100, 100), seed=2)
        product, inverse = least([lambda: a @ b, lambda: np.linalg.inv(a)])
        print(f"| `{field.__name__}` | {product * 1e3:.1f} | {inverse * 1e3:.1f} |")
    print("\n| Transform of `Ghash128` | ms | ns a value |\n|---|---:|---:|")
    for log in (10, 16):
        values = bf.Ghash128.random(1 << log, seed=3)
        forward, back = least([lambda: bf.transform(values), lambda: bf.inverse_transform(values)])
        for name, taken in (("forward", forward), ("inverse", back)):
            print(f"| {name}, 2^{log} | {taken * 1e3:.2f} | {taken / (1 << log) * 1e9:.0f} |")
    print("\n| `decode` of 10,000 words of (255, 223) | MB/s of words |\n|---|---:|")
    code = bf.CorrectingCode.ccsds_223()
    sent = code.encode((np.arange(10_000 * 223) % 251).astype(np.uint8).reshape(10_000, 223))
    received = sent.copy()
    received[:, 3::16] ^= 1
    for name, words, axis in (
        ("no errors", sent, -1), ("no errors, words in columns", np.ascontiguousarray(sent.T), 0), ("16 errors", received, -1),
    ):
        taken = least([lambda: code.decode(words, axis=axis)])[0]
        if not np.array_equal(code.decode(words, "codeword", axis=axis), sent if axis else sent.T):
            differ.append(name)
        print(f"| {name} | {sent.size / taken / 1e6:.1f} |")
    print(f"\nTHE SIDES DIFFER: {', '.join(differ)}." if differ else "\nBoth sides agree.")
    return 1 if differ else 0


if __name__ == "__main__":
    sys.exit(main())
