"""Calls of codes that correct errors and of shares of secrets, with the statuses and the results that the definitions give."""

import itertools

import definitions
from called import case, refused, with_argument

# Codes of standards and others: a modulus, symbols of a word and of its data, the first root and the step from one to the next.
CORRECTING_CODES = [
    (0x187, 255, 223, 112, 11), (0x11D, 204, 188, 0, 1), (0x11D, 26, 16, 0, 1), (0x11B, 85, 9, 1, 3), (0x11D, 2, 1, 0, 1), (0x11B, 255, 1, 7, 2),
    (0x187, 5, 3, (1 << 64) - 1, (1 << 64) - 2), (0x11D, 3, 2, 5, 85),
]

# Codes with so few words that all are looked at: of one symbol of data.
FEW_WORDS = [(0x11D, 2, 1, 0, 1), (0x11D, 5, 1, 0, 1), (0x187, 6, 1, 3, 11), (0x11B, 7, 1, 1, 1)]

# No codes: a modulus that is none of these, no data, nothing but data, words that are too long, and roots that come again.
NO_CODES = [
    (0x12D, 5, 3, 0, 1), (0x1D, 5, 3, 0, 1), (1 << 32 | 0x11D, 5, 3, 0, 1), (0x11D, 5, 0, 0, 1), (0x11D, 5, 5, 0, 1), (0x11D, 5, 6, 0, 1),
    (0x11D, 256, 3, 0, 1), (0x11B, (1 << 64) - 1, 3, 0, 1), (0x11D, 2, 1, 0, 0), (0x187, 86, 9, 0, 3), (0x11D, 4, 2, 5, 85), (0x11D, 2, 1, 0, 255),
]


def correcting_cases(draw):
    """Codes that correct errors, over many words, of which some are changed."""
    for code in CORRECTING_CODES:
        symbols, checks = code[1], code[1] - code[2]
        for count in (0, 1, 5):
            words = [definitions.code_word(code, draw.randbytes(code[2])) for _ in range(count)]
            drawn_ends = [[*it[: code[2]], *draw.randbytes(checks)] for it in words]
            yield case("code_encode", *code, (sum(drawn_ends, []), sum(words, [])))
            for at in range(1, count, 2):
                words[at][draw.randrange(symbols)] ^= 1 << draw.randrange(8)
            flags = [int(at % 2 == 0) for at in range(count)]
            values = [definitions.code_syndromes(code, it) for it in words]
            assert flags == [int(not any(it)) for it in values]
            yield case("code_syndromes", *code, sum(words, []), sum(values, []))
            yield case("code_are_words", *code, sum(words, []), flags)
            # Flags or values of a word that is not there, and a word of which a symbol is not.
            yield refused(case("code_are_words", *code, sum(words, []), [*flags, 0]), "BF_LENGTH")
            yield refused(case("code_syndromes", *code, sum(words, []), [*sum(values, []), 0]), "BF_LENGTH")
            yield refused(case("code_encode", *code, ([*sum(words, []), 7], [])), "BF_LENGTH")
    for code in NO_CODES:
        for words in ([], [0] * 10):
            yield refused(case("code_encode", *code, (words, words)), "BF_CODE")
            yield refused(case("code_syndromes", *code, words, [0] * 4), "BF_CODE")
            yield refused(case("code_are_words", *code, words, [0] * 2), "BF_CODE")


def interleaved(words):
    """The symbols of words that stand interleaved: the first of all words, then the second."""
    return [symbol for row in zip(*words) for symbol in row]


def interleaved_cases(draw):
    """The same codes over words that stand interleaved, of which the same places are erased."""
    for code, count in itertools.product([*CORRECTING_CODES, *FEW_WORDS], (0, 1, 3, 15, 16, 19)):
        symbols, checks = code[1], code[1] - code[2]
        sent = [definitions.code_word(code, draw.randbytes(code[2])) for _ in range(count)]
        drawn_ends = [[*it[: code[2]], *draw.randbytes(checks)] for it in sent]
        yield case("code_encode_interleaved", *code, (interleaved(drawn_ends), interleaved(sent)))
        for lost in sorted({0, checks // 2, checks}):
            erased = draw.sample(range(symbols), lost)
            flags = [draw.randrange(1, 256) if at in erased else 0 for at in range(symbols)]
            received, wrong = [list(it) for it in sent], (checks - lost) // 2
            for word in received:
                for place in [*erased, *draw.sample(range(symbols), draw.randrange(wrong + 1))]:
                    word[place] = draw.randrange(256)
            values = interleaved([definitions.code_syndromes(code, it) for it in received])
            yield case("code_syndromes_interleaved", *code, interleaved(received), values)
            for given in (flags, []) if lost == 0 else (flags,):
                words = (interleaved(received), interleaved(sent))
                yield case("code_correct_interleaved", *code, words, given, values, [1] * count)
        # One more than can be erased, in words of the code.
        flags, words, zeros = [1] * (checks + 1) + [0] * (code[2] - 1), interleaved(sent), [0] * (checks * count)
        yield case("code_correct_interleaved", *code, (words, words), flags, zeros, [0] * count)
    for code in FEW_WORDS:
        symbols, checks = code[1], code[1] - code[2]
        words = [definitions.code_word(code, [it]) for it in range(256)]
        flags = [draw.choice((0, 0, 0, 1)) for _ in range(symbols)]
        received = [[draw.choice((0, symbol, symbol, draw.getrandbits(8))) for symbol in draw.choice(words)] for _ in range(30)]
        meant = [definitions.code_meant(checks, words, it, flags) for it in received]
        after = [old if new is None else new for old, new in zip(received, meant)]
        values = interleaved([definitions.code_syndromes(code, it) for it in received])
        said = [int(it is not None) for it in meant]
        yield case("code_correct_interleaved", *code, (interleaved(received), interleaved(after)), flags, values, said)
    code, words = FEW_WORDS[1], [0] * 15
    for symbols, flags, values, count in ((15, 4, 12, 3), (15, 6, 12, 3), (15, 5, 11, 3), (15, 5, 12, 2), (15, 0, 12, 4), (14, 5, 8, 2)):
        wrong = case("code_correct_interleaved", *code, (words[:symbols],) * 2, [0] * flags, [0] * values, [0] * count)
        yield refused(wrong, "BF_LENGTH")
    yield refused(case("code_encode_interleaved", *code, (words[1:], words[1:])), "BF_LENGTH")
    for values in (11, 13):
        yield refused(case("code_syndromes_interleaved", *code, words, [0] * values), "BF_LENGTH")
    for code in NO_CODES:
        yield refused(case("code_encode_interleaved", *code, (words, words)), "BF_CODE")
        yield refused(case("code_syndromes_interleaved", *code, words, [0] * 4), "BF_CODE")
        yield refused(case("code_correct_interleaved", *code, (words, words), [], [0] * 4, [0]), "BF_CODE")


def correction(code, received, erased, meant):
    """The cases of some words, with flags and, where no symbol is erased, without: what each becomes, and how many of its symbols change."""
    after = [old if new is None else new for old, new in zip(received, meant)]
    counts = [65535 if new is None else sum(a != b for a, b in zip(old, new)) for old, new in zip(received, meant)]
    flags = sum(erased, [])
    for given in [flags] if any(flags) else [flags, []]:
        yield case("code_correct", *code, (sum(received, []), sum(after, [])), given, counts)


def correct_cases(draw):
    """Words with errors and erased symbols, up to as many as a code corrects and beyond."""
    for code in FEW_WORDS:
        symbols, checks = code[1], code[1] - code[2]
        words = [definitions.code_word(code, [it]) for it in range(256)]
        for count in (0, 1, 2, 3, 20):
            received, erased = [list(draw.choice(words)) for _ in range(count)], []
            for it in received:
                for place in draw.sample(range(symbols), draw.randrange(symbols + 1)):
                    it[place] = draw.choice((0, draw.getrandbits(8)))
                erased.append([draw.choice((0, 0, 0, 1, 255)) for _ in it])
            for flags in (erased, [[0] * symbols for _ in received]):
                yield from correction(code, received, flags, [definitions.code_meant(checks, words, *it) for it in zip(received, flags)])
    for code in CORRECTING_CODES:
        symbols, checks = code[1], code[1] - code[2]
        for lost in sorted({0, 1, checks // 2, checks}):
            word = definitions.code_word(code, draw.randbytes(code[2]))
            places = draw.sample(range(symbols), lost + (checks - lost) // 2)
            received = [it ^ draw.randrange(1, 256) if at in places else it for at, it in enumerate(word)]
            erased = [draw.randrange(1, 256) if at in places[:lost] else 0 for at in range(symbols)]
            # One more than can be erased, in a word of the code.
            many = [1] * (checks + 1) + [0] * (code[2] - 1)
            yield from correction(code, [received], [erased], [word])
            yield from correction(code, [word, received, word], [many, erased, [0] * symbols], [None, word, word])
    code, words = FEW_WORDS[1], [0] * 15
    for flags, count in ((14, 3), (16, 3), (15, 2), (15, 4), (5, 3), (0, 2)):
        yield refused(case("code_correct", *code, (words, words), [0] * flags, [0] * count), "BF_LENGTH")
    yield refused(case("code_correct", *code, (words[1:], words[1:]), [], [0] * 3), "BF_LENGTH")
    for code in NO_CODES:
        yield refused(case("code_correct", *code, (words, words), [], [0] * 3), "BF_CODE")
        yield refused(case("code_correct", *code, ([], []), [0], []), "BF_CODE")


def secret_cases(draw):
    """Secrets that are split, and restored from shares in any order, as many as are needed and more; and what is refused."""
    for modulus, needed, count, size in (
        (0x11B, 2, 2, 1), (0x11B, 3, 5, 16), (0x11D, 2, 5, 33), (0x11D, 4, 4, 7), (0x11B, 2, 255, 2), (0x11D, 20, 30, 3), (0x11B, 255, 255, 1),
    ):
        secret, draws = draw.randbytes(size), draw.randbytes((needed - 1) * size)
        shares = [definitions.share(modulus, secret, draws, index) for index in range(1, count + 1)]
        split = case("secret_split", modulus, needed, count, secret, draws, list(b"".join(shares)))
        yield split
        yield case("secret_split", modulus, needed, count, secret, bytes(len(draws)), list(secret * count))
        for taken in sorted({needed, min(needed + 1, count), count}):
            indexes = draw.sample(range(1, count + 1), taken)
            left = b"".join(shares[it - 1] for it in indexes)
            yield case("secret_combine", modulus, needed, indexes, left, list(secret))
            wrong = bytearray(left)
            wrong[draw.randrange(len(wrong))] ^= 1 << draw.randrange(8)
            changed = case("secret_combine", modulus, needed, indexes, wrong, list(secret))
            if taken > needed:
                yield refused(changed, "BF_UNSOLVABLE")
            twice = [indexes[-1], *indexes[1:]]
            for given in ([0, *indexes[1:]], twice):
                yield refused(case("secret_combine", modulus, needed, given, left, list(secret)), "BF_CODE")
                # Wrong indexes are told before lengths, and too few shares before both.
                yield refused(case("secret_combine", modulus, needed, given, b"", list(secret)), "BF_CODE")
                if taken < 255:
                    yield refused(case("secret_combine", modulus, 255, given, b"", list(secret)), "BF_TOO_FEW_SHARDS")
        few = list(range(1, needed))
        yield refused(case("secret_combine", modulus, needed, few, b"".join(shares[: needed - 1]), list(secret)), "BF_TOO_FEW_SHARDS")
        for other in (0, 0x1B, 0x11C, 0x1011B, (1 << 64) - 1):
            yield refused(with_argument(split, 0, before=[other], after=[other]), "BF_CODE")
            yield refused(case("secret_combine", other, needed, few, b"", list(secret)), "BF_CODE")
        for few_needed in (0, 1):
            yield refused(case("secret_combine", modulus, few_needed, few, b"", list(secret)), "BF_CODE")
            yield refused(with_argument(split, 1, before=[few_needed], after=[few_needed]), "BF_CODE")
        for other in (needed - 1, 256, (1 << 64) - 1):
            yield refused(with_argument(split, 2, before=[other], after=[other]), "BF_CODE")
    yield refused(case("secret_combine", 0x11B, 2, [1 + it % 255 for it in range(256)], [7] * 256, [0]), "BF_CODE")
    yield refused(case("secret_combine", 0x11B, 2, [1, 2], [], []), "BF_LENGTH")
    yield refused(case("secret_split", 0x11B, 2, 3, [], [], []), "BF_LENGTH")
    # The other shares of these bytes are those of SLIP-0039's field and of libgfshare's: 2 times 0x80 tells them apart.
    for modulus, double in ((0x11B, 0x1B), (0x11D, 0x1D)):
        yield case("secret_split", modulus, 2, 2, [0], [0x80], [0x80, double])


def wrong_share_cases(draw):
    """Secrets that are restored from shares of which some are wrong; and what is refused."""
    for modulus, needed, count, size in ((0x11B, 2, 2, 1), (0x11B, 3, 5, 16), (0x11D, 2, 9, 33), (0x11D, 4, 7, 7), (0x11B, 2, 255, 2), (0x11B, 20, 41, 3)):
        secret, draws = draw.randbytes(size), draw.randbytes((needed - 1) * size)
        indexes = draw.sample(range(1, 256), count)
        shares = [definitions.share(modulus, secret, draws, index) for index in indexes]
        whole = list(b"".join(shares))
        most = (count - needed) // 2
        for lost in sorted({0, min(1, most), most}):
            wrong, left = [0] * count, list(whole)
            for at in draw.sample(range(count), lost):
                wrong[at] = 1
                for place in draw.sample(range(size), draw.randrange(1, size + 1)):
                    left[at * size + place] ^= draw.randrange(1, 256)
            yield case("secret_combine_correcting", modulus, needed, indexes, left, list(secret), wrong)
        zeros = [0] * count
        for given in ([0, *indexes[1:]], [indexes[-1], *indexes[1:]]):
            yield refused(case("secret_combine_correcting", modulus, needed, given, whole, list(secret), zeros), "BF_CODE")
            # Wrong indexes are told before lengths, and too few shares before both.
            yield refused(case("secret_combine_correcting", modulus, needed, given, b"", list(secret), zeros), "BF_CODE")
            if count < 255:
                yield refused(case("secret_combine_correcting", modulus, 255, given, b"", list(secret), zeros), "BF_TOO_FEW_SHARDS")
        # One answer for each share is wanted before all but the field.
        yield refused(case("secret_combine_correcting", modulus, 1, indexes, whole, list(secret), [*zeros, 0]), "BF_LENGTH")
        yield refused(case("secret_combine_correcting", 0x11C, needed, indexes, whole, list(secret), [*zeros, 0]), "BF_CODE")
        yield refused(case("secret_combine_correcting", modulus, 1, indexes, whole, list(secret), zeros), "BF_CODE")
    # Of four shares two of one secret and two of another: no polynomial of two coefficients misses but one.
    for modulus in (0x11B, 0x11D):
        apart = definitions.share(modulus, b"a", b"b", 1) + definitions.share(modulus, b"a", b"b", 2)
        apart += definitions.share(modulus, b"c", b"e", 3) + definitions.share(modulus, b"c", b"e", 4)
        yield refused(case("secret_combine_correcting", modulus, 2, [1, 2, 3, 4], apart, [0], [0] * 4), "BF_UNSOLVABLE")
    yield refused(case("secret_combine_correcting", 0x11B, 2, [1 + it % 255 for it in range(256)], [7] * 256, [0], [0] * 256), "BF_CODE")
    yield refused(case("secret_combine_correcting", 0x11B, 2, [1, 2], [], [], [0] * 2), "BF_LENGTH")


CASES = (correcting_cases, interleaved_cases, correct_cases, secret_cases, wrong_share_cases)
