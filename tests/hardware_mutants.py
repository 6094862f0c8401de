"""Faults in hardware/kernels.c, one at a time, and whether hardware/check-object or the comparison refuses each.

    hardware_mutants.py INCLUDE ARCHIVE

INCLUDE is the folder of binary_field.h, and ARCHIVE the library that the comparison calls. A fault is refused where it is refused in each
build that it concerns. Those that change no result have to be kept, and changes that leave the form of a kernel are for check-object alone.
"""

import pathlib
import re
import subprocess
import sys
import tempfile

TOP = pathlib.Path(__file__).resolve().parent.parent
HARDWARE = TOP / "hardware"
BUILDS = {"sse": "-msse4.1", "avx2": "-mavx2"}
BOTH, AVX2 = ("sse", "avx2"), ("avx2",)

# What is replaced, at its first place, by what, and which builds it concerns.
FAULTS = [
    # Constants.
    ("TAIL_128 0x87", "TAIL_128 0x86", BOTH),
    ("TAIL_128 0x87", "TAIL_128 0x8f", BOTH),
    ("TAIL_64 0x1b", "TAIL_64 0x1a", BOTH),
    ("TAIL_64 0x1b", "TAIL_64 0x3b", BOTH),
    ("TOP 0xc200000000000000", "TOP 0xc100000000000000", BOTH),
    ("PAIR(0x4600000000000000, 3)", "PAIR(0x4600000000000000, 1)", BOTH),
    ("PAIR(0x4600000000000000, 3)", "PAIR(0x4400000000000000, 3)", BOTH),
    ("POWER_127 PAIR(0x8000000000000000, 0)", "POWER_127 PAIR(0x4000000000000000, 0)", BOTH),
    ("multiply)(s, PAIR(1, 0))", "multiply)(s, PAIR(2, 0))", BOTH),
    ("PAIR(0, 1)));", "PAIR(0, 3)));", BOTH),
    ("0x5555555555555555) | (w & 0x5555555555555555) << 1", "0x5555555555555555) | (w & 0x5555555555555554) << 1", BOTH),
    ("w >> 4 & 0x0f0f0f0f0f0f0f0f", "w >> 4 & 0x0f0f0f0f0f0f0f07", BOTH),
    # Halves, shifts and shuffles.
    ("MUL(high, PAIR(0, TAIL_128), 0x01)", "MUL(high, PAIR(0, TAIL_128), 0x00)", BOTH),
    ("XOR(XOR(low, UP(high)), MUL(high", "XOR(XOR(low, DOWN(high)), MUL(high", BOTH),
    ("middle = XOR(MUL(a, b, 0x01), MUL(a, b, 0x10));\n    return fold_128",
     "middle = XOR(MUL(a, b, 0x01), MUL(a, b, 0x00));\n    return fold_128", BOTH),
    ("high = MUL(a, b, 0x11), middle", "high = MUL(a, b, 0x10), middle", BOTH),
    ("MUL(a, a, 0x11)", "MUL(a, a, 0x00)", BOTH),
    ("fold_128(ZERO, s)", "fold_128(s, s)", BOTH),
    ("MUL(a, p.t, 0x01)", "MUL(a, p.t, 0x00)", BOTH),
    ("MUL(a, p.t, 0x11)", "MUL(a, p.s, 0x11)", BOTH),
    ("srli_epi64(high, 60)", "srli_epi64(high, 59)", AVX2),
    ("srli_epi64(high, 61)", "srli_epi64(high, 62)", AVX2),
    ("srli_epi64(high, 63)", "srli_epi64(high, 62)", AVX2),
    ("slli_epi64(high, 3)", "slli_epi64(high, 2)", AVX2),
    ("slli_epi64(high, 1)", "slli_epi64(high, 0)", AVX2),
    ("low = _mm256_unpacklo_epi64(even, odd)", "low = _mm256_unpacklo_epi64(odd, even)", AVX2),
    ("castsi128_si256(p0), p2, 1)", "castsi128_si256(p0), p1, 1)", AVX2),
    ("XOR(SWAP(low), MUL(low", "XOR(low, MUL(low", BOTH),
    ("MUL(x, y, 0x11), MUL(z, w, 0x11)", "MUL(x, y, 0x01), MUL(z, w, 0x11)", BOTH),
    ("a >> 32 & 255] ^ t[5][a >> 40 & 255]", "a >> 32 & 255] ^ t[5][a >> 32 & 255]", BOTH),
    ("low >> 4 * i & 15", "low >> 4 * i & 7", BOTH),
    ("w >> 2 & 0x3333333333333333", "w >> 3 & 0x3333333333333333", BOTH),
    ("#define AS_IT_IS(v) (v)", "#define AS_IT_IS(v) SWAP(v)", BOTH),
    # What is added to what, and in which order.
    ("high = XOR(high, MUL(x, y, 0x11));", "high = XOR(high, MUL(x, y, 0x10));", BOTH),
    ("more = XOR(more, MUL(x, y, 0x10));", "more = MUL(x, y, 0x10);", BOTH),
    ("fold_128(low, fold_128(XOR(middle, more), high))", "fold_128(low, fold_128(middle, high))", BOTH),
    ("XOR(first, MUL(first, tail, 0x01))", "first", BOTH),
    ("MUL(z, w, 0x00)));", "MUL(z, y, 0x00)));", BOTH),
    ("P64_TURNS(LOW_LOW, HIGH_LOW, PLUS_OLD)", "P64_TURNS(LOW_LOW, HIGH_LOW, ALONE)", AVX2),
    ("P64_TURNS(LOW_LOW, HIGH_HIGH, ALONE)", "P64_TURNS(LOW_LOW, HIGH_LOW, ALONE)", AVX2),
    ("XOR(WORD_AT(out + i), fold_64", "XOR(WORD_AT(a + i), fold_64", BOTH),
    ("FORWARD(low, high, p) (low = XOR(low, scaled(high, p)), high = XOR(high, low))",
     "FORWARD(low, high, p) (low = XOR(low, scaled(high, p)))", BOTH),
    ("(high = XOR(high, low), low = XOR(low, scaled(high, p)))", "(low = XOR(low, scaled(high, p)), high = XOR(high, low))", BOTH),
    ("fold_64(XOR(low, high))", "fold_64(low)", BOTH),
    ("MUL(fold_64(high), root, 0x00)", "MUL(high, root, 0x00)", BOTH),
    ("MUL(x, powers[i], 0x01)", "MUL(x, powers[0], 0x01)", BOTH),
    ("V x = XOR(*hash, order(LOAD(blocks)))", "V x = order(LOAD(blocks))", BOTH),
    ("fold_128(V low, V high) { return XOR(XOR(low, UP(high))", "fold_128(V low, V high) { return XOR(XOR(ZERO, UP(high))", BOTH),
    # Loops, lengths and schedules.
    ("i < n; i++)\n        STORE(out + i, product_128", "i + 1 < n; i++)\n        STORE(out + i, product_128", BOTH),
    ("STORE(out + i, square_128(LOAD(a + i)))", "STORE(out + i, square_128(LOAD(a + i / 2 * 2)))", BOTH),
    ("scalar_and_shifted b = pair_sum(a, steps[0][0]);", "scalar_and_shifted b = pair_sum(a, steps[1][0]);", BOTH),
    ("a = pair_sum(a, steps[1][ones]);", "a = pair_sum(a, steps[0][ones]);", BOTH),
    ("~(unsigned long long)k)", "~(unsigned long long)(k + 1))", BOTH),
    ("INVERSE(r2, r3, b), INVERSE(r0, r2, top)", "INVERSE(r2, r3, a), INVERSE(r0, r2, top)", BOTH),
    ("level - 2, bf_kernel_table.vectors + 1, 2 * first);", "level - 2, bf_kernel_table.vectors + 1, first);", BOTH),
    ("s = XOR(s, NAMED(square)(s));", "s = NAMED(square)(s);", BOTH),
    ("NAMED(walk)(v + k * n, m & ~1, k, &state);", "NAMED(walk)(v + k * n, m & ~1, 0, &state);", BOTH),
    ("scalar_at(scalars[1], shifts, basis, 8 * first);", "scalar_at(scalars[1], shifts, basis, 4 * first);", BOTH),
    ("(k == 0 || (first ^ last) >> k)", "(k == 0 || (first ^ last) >> (k + 1))", BOTH),
    ("from + k < length ?", "from + k < length - 1 ?", BOTH),
    ("NAMED(power_map)(1, r7)", "NAMED(power_map)(2, r7)", BOTH),
    ("NAMED(raised)(r48, 12, r12)", "NAMED(raised)(r48, 11, r12)", BOTH),
    ("AND(AND(words, SWAP(words)), PAIR(0, 1))", "AND(words, PAIR(0, 1))", BOTH),
    ("y[0] = NAMED(multiply)(of_p, x[1]);", "y[0] = NAMED(multiply)(of_p, x[0]);", BOTH),
    ("NAMED(multiply)(y[c], before[i - 1][c])", "NAMED(multiply)(y[c], before[i][c])", BOTH),
    ("out[4 * i + c] = w ^ is_zero;", "out[4 * i + c] = w;", BOTH),
    ("exponent ? fixed[j] : (type)one", "fixed[j]", BOTH),
    ("62 - __builtin_clzll(exponent)", "61 - __builtin_clzll(exponent)", BOTH),
    ("plus(out + i + j, coefficients + k);", "plus(out + i + j, coefficients);", BOTH),
    ("powers + GROUP - n, message, n", "powers, message, n", BOTH),
    ("memcpy(last, message + 16 * n, length & 15);", "memcpy(last, message + 16 * n, length & 7);", BOTH),
    ("PAIR(reversed_bits(words[0]), reversed_bits(words[1]))", "PAIR(reversed_bits(words[1]), reversed_bits(words[0]))", BOTH),
    # Hashes in pieces.
    ("words[0] = reversed_bits(HIGH_WORD(v));", "words[0] = reversed_bits(LOW_WORD(v));", BOTH),
    ("power = NAMED(polyval_multiply)(power, multiplier);", "power = NAMED(polyval_multiply)(power, power);", BOTH),
    ("V multiplier = NAMED(times_x)(of_element(state)), sum", "V multiplier = of_element(state), sum", BOTH),
    ("if (length >= room) {", "if (length > room) {", BOTH),
    ("memcpy(block + used, message, room);", "memcpy(block, message, room);", BOTH),
    ("message += room;", "message += used;", BOTH),
    ("length -= room;", "length -= room / 2;", BOTH),
    ("            used = 0;\n", "", BOTH),
    ("message += length / 16 * 16;", "message += length / 32 * 16;", BOTH),
    ("memcpy(block + used, message, length);", "memcpy(block, message, length);", BOTH),
    ("state[USED] = used + length;", "state[USED] = length;", BOTH),
    ("memset(block + state[USED], 0, 16 - state[USED]);", "", BOTH),
    ("-state[USED] % 16, some);", "16 - state[USED], some);", BOTH),
    ("    NAMED(pad)(state, some);\n    V hash", "    V hash", BOTH),
    ("memset(state + SUM, 0, 16);", "memset(state + SUM, 0, 8);", BOTH),
    ("NAMED(begin)(state, power, NAMED(times_x)(power));", "NAMED(begin)(state, power, power);", BOTH),
]
# These change no result.
KEPT = [("#define IN_CACHE 10", "#define IN_CACHE 6"), ("#define BATCH 64", "#define BATCH 16"), ("#define GROUP 8", "#define GROUP 4")]

PRODUCT = "STORE(out + i, product_128(LOAD(a + i), LOAD(b + i)));"
BY = "    scalar_and_shifted p = with_shifted(LOAD(scalar));\n    for (size_t i = 0; i < n; i++)\n        STORE(out + i, scaled"
# Changes that leave the form of a kernel, each with its name; they are read in the build for AVX2.
STRUCTURE = [
    ("a branch on an operand", BY, "    if (!scalar->words[0] && !scalar->words[1]) { memset(out, 0, 16 * n); return; }\n" + BY),
    ("a branch on an element", PRODUCT, "if (a[i].words[0] == 5) STORE(out + i, LOAD(a + i)); else " + PRODUCT),
    ("a constant added", PRODUCT, "STORE(out + i, XOR(product_128(LOAD(a + i), LOAD(b + i)), PAIR(0, 1)));"),
    ("a product of degree 3", PRODUCT, "{ V x = LOAD(a + i); STORE(out + i, product_128(product_128(x, LOAD(b + i)), x)); }"),
    ("an operand added", PRODUCT, "STORE(out + i, XOR(LOAD(a + i), product_128(LOAD(a + i), LOAD(b + i))));"),
    ("a sum of integers", PRODUCT, "STORE(out + i, _mm_add_epi64(product_128(LOAD(a + i), LOAD(b + i)), LOAD(out + i)));"),
    ("an or", PRODUCT, "STORE(out + i, _mm_or_si128(product_128(LOAD(a + i), LOAD(b + i)), PAIR(0, 1)));"),
    ("an and of operands", PRODUCT, "STORE(out + i, product_128(AND(LOAD(a + i), LOAD(b + i)), LOAD(b + i)));"),
    ("a shuffle by an operand", PRODUCT, "STORE(out + i, product_128(_mm_shuffle_epi8(PAIR(1, 2), LOAD(a + i)), LOAD(b + i)));"),
    ("a shift by an operand", PRODUCT, "STORE(out + i, product_128(_mm_sll_epi64(LOAD(a + i), LOAD(b + i)), LOAD(b + i)));"),
    ("a look-up by an operand", PRODUCT, "STORE(out + i, product_128(LOAD(bf_kernel_table.vectors + (a[i].words[0] & 31)), LOAD(b + i)));"),
    ("a square across halves", "return fold_128(MUL(a, a, 0x00)", "return fold_128(MUL(a, a, 0x01)"),
    ("a product with the element before", PRODUCT,
     "{ static V z; if (!i) z = ZERO; V x = LOAD(a + i); STORE(out + i, product_128(XOR(x, z), LOAD(b + i))); z = x; }"),
    ("upper halves left in use", "    _mm256_zeroupper();\n", "\n"),
    ("another product far along", PRODUCT,
     "STORE(out + i, i == 5000 ? MUL(LOAD(a + i), LOAD(b + i), 0x00) : product_128(LOAD(a + i), LOAD(b + i)));"),
    ("two elements a turn", PRODUCT, PRODUCT + "\n    if (n > 1)\n        STORE(out + 1, product_128(LOAD(a + 1), LOAD(b + 1)));"),
    ("a minimum", PRODUCT, "STORE(out + i, _mm_min_epu8(LOAD(a + i), LOAD(b + i)));"),
    ("a product in a chain", "STORE(state.shifts + j, s);", "STORE(state.shifts + j, MUL(s, PAIR(0, 1), 0x00));"),
]


def run(*words):
    """Runs a command."""
    return subprocess.run([str(it) for it in words], capture_output=True, text=True, check=False)


class Tries:
    """Changed kernels, compiled in a folder of their own."""

    def __init__(self, include, archive, work):
        self.work, self.archive = pathlib.Path(work), archive
        self.flags = [*(HARDWARE / "flags").read_text(encoding="ascii").split(), "-w", "-I", HARDWARE, "-I", include]
        self.source = (HARDWARE / "kernels.c").read_text(encoding="ascii")
        self.objects = []
        for path in [*HARDWARE.glob("*.c"), TOP / "tests" / "hardware_kernels.c"]:
            if path.name != "kernels.c":
                self.objects.append(self.work / f"{path.stem}.o")
                self.make(path, self.objects[-1])
        self.kernels = {name: self.build(name, self.source) for name in BUILDS}

    def make(self, source, into, *more):
        """Compiles a file."""
        made = run("gcc", *self.flags, *more, "-c", source, "-o", into)
        assert made.returncode == 0, made.stderr

    def build(self, name, source, *more, into=None):
        """Compiles the kernels of a build, and gives the object."""
        path, into = self.work / "kernels.c", into or self.work / f"{name}.o"
        path.write_text(source, encoding="ascii")
        self.make(path, into, "-mpclmul", BUILDS[name], *more)
        return into

    def different(self, builds, source):
        """Where the comparison finds each build of a changed source, if it does; compiled fast, since only the form asks for the flags."""
        changed = {name: self.build(name, source, "-O1", into=self.work / f"changed_{name}.o") for name in builds}
        made = run("gcc", *self.objects, *({**self.kernels, **changed}.values()), self.archive, "-pthread", "-o", self.work / "tried")
        assert made.returncode == 0, made.stderr
        said, found = run(self.work / "tried", "compare"), {}
        for name in builds:
            lines = [it for it in said.stdout.splitlines() if it.startswith(f"hardware_kernels: {name},") and "no difference" not in it]
            if lines or said.returncode < 0:
                found[name] = lines[0] if lines else f"signal {-said.returncode}"
        return found

    def refused(self, builds, source):
        """By what each build of a changed source is refused, if it is: the comparison, or else check-object."""
        found = self.different(builds, source)
        for name in builds:
            said = "" if name in found else run(HARDWARE / "check-object", self.build(name, source, into=self.work / "form.o")).stdout
            if "WRONG " in said:
                found[name] = "check-object: " + said.partition("WRONG ")[2].partition("\n")[0]
        return found


def changed(source, old, new):
    """The source with one change. Of what a macro spells, continued lines are none."""
    assert old in source, f"kernels.c has no {old}"
    return source.replace(old, new, 1)


def without_clearing(source):
    """The source without what clears the upper halves of the registers."""
    return re.sub(r" *\\\n *_mm256_zeroupper\(\);", "", source)


def told(is_refused, what, *by):
    """Says what became of a change."""
    print("refused" if is_refused else "NOT REFUSED", "|", what.replace("\n", " "), "|", "; ".join(by), flush=True)


def main():
    include, archive = sys.argv[1:]
    wrong = refused = 0
    with tempfile.TemporaryDirectory() as work:
        tries = Tries(include, archive, work)
        for old, new, builds in FAULTS:
            found = tries.refused(builds, changed(tries.source, old, new))
            is_refused = set(found) == set(builds)
            refused += is_refused
            wrong += not is_refused
            told(is_refused, f"{old} -> {new}", *found.values())
        for old, new in KEPT:
            found = tries.different(AVX2, changed(tries.source, old, new))
            wrong += bool(found)
            print("REFUSED, and changes no result" if found else "kept", "|", old, "->", new, "|", *found.values())
        for name, old, new in STRUCTURE:
            is_clearing = "zeroupper" in old
            source = without_clearing(tries.source) if is_clearing else changed(tries.source, old, new)
            more = ["-fno-builtin", *(["-mno-vzeroupper"] if is_clearing else [])]
            said = run(HARDWARE / "check-object", tries.build("avx2", source, *more))
            found = said.stdout.partition("WRONG ")[2].partition("\n")[0]
            wrong += not found
            told(bool(found), name, found)
    print(f"hardware_mutants: {refused} of {len(FAULTS)} faults refused, {len(STRUCTURE)} changes of form; {wrong} went otherwise")
    return wrong != 0


if __name__ == "__main__":
    sys.exit(main())
