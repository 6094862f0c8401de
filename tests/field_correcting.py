"""Calls of codes over fields that a caller chooses and of binary codes, with the statuses and the results that the definitions give."""

import definitions
from called import case, refused

# Codes over fields: a modulus, symbols of a word and of its data, the first root and the element whose powers the roots are. The first has
# the field of PAR2, and the last of each size is shorter than the order of that element.
FIELD_CODES = [
    (0x1100B, 40, 32, 0, 2), (0x1100B, 9, 2, (1 << 64) - 1, 0xABCD), (0x11D, 26, 16, 0, 2), (0x11B, 85, 79, 1, 15), (0x13, 15, 9, 1, 2), (0x13, 5, 2, 3, 8),
    (0x1053, 30, 24, 1, 2), (0x7, 3, 1, 0, 2), (0xB, 7, 3, 1, 3),
]
# Those with so few words that all are looked at: of one symbol of data.
FEW_WORDS = [(0x13, 6, 1, 1, 2), (0xB, 7, 1, 2, 3), (0x7, 3, 1, 0, 2), (0x11D, 4, 1, 0, 2)]
# No codes: fields with too many elements, no data, nothing but data, roots that are none, come again or are no elements.
NO_FIELD_CODES = [
    (1 << 17 | 0x9, 5, 3, 0, 2), (1 << 128 | 0x87, 5, 3, 0, 2), (0x13, 5, 0, 0, 2), (0x13, 5, 5, 0, 2), (0x13, 5, 6, 0, 2), (0x13, 16, 9, 0, 2),
    (0x13, 5, 3, 0, 0), (0x13, 2, 1, 0, 1), (0x13, 6, 3, 0, 8), (0x13, 5, 3, 0, 16), (0x1100B, 5, 3, 0, 1 << 16 | 2), (0x1100B, 65536, 3, 0, 2),
    (0x1100B, (1 << 64) - 1, 3, 0, 2), (0x1100B, 5, 3, 0, (1 << 64) - 1),
]

# Binary codes: a modulus, bits of a word, errors, and the step of the roots.
BINARY_CODES = [(0x11D, 255, 2, 1), (0x187, 255, 18, 11), (0x11B, 85, 3, 3), (0x11D, 60, 5, 1), (0x11D, 15, 2, 17), (0x11D, 3, 1, 85)]
# Those with few bits of data.
FEW_BITS = [(0x11D, 15, 3, 17), (0x11B, 15, 7, 17), (0x187, 12, 2, 17), (0x11D, 5, 2, 51), (0x11D, 17, 2, 15), (0x11D, 9, 1, 1)]
NO_BINARY_CODES = [
    (0x13, 15, 2, 1), (0x1D, 15, 2, 17), (0x11D, 15, 0, 17), (0x11D, 15, 8, 17), (0x11D, 256, 2, 1), (0x11D, 16, 2, 17), (0x11D, 8, 1, 1),
    (0x11D, 15, (1 << 63) + 1, 17), (0x11D, (1 << 64) - 1, 1, 1), (0x11D, 15, 2, 0), (0x11D, 7, 2, 17),
]


def words_of(modulus):
    """The struct of a field by its modulus."""
    degree = modulus.bit_length() - 1
    return definitions.field_words(degree, modulus ^ 1 << degree)


def spaces(symbols, data):
    """What a call that corrects works in."""
    return 2 * symbols + 5 * (symbols - data) + 3, 2 * symbols, symbols


def changed(draw, word, bits, lost, wrong):
    """A word with so many symbols lost at places that are told and so many wrong at others, and its flags."""
    places = draw.sample(range(len(word)), min(lost + wrong, len(word)))
    result = list(word)
    for at in places:
        result[at] ^= draw.randrange(1, 1 << bits)
    return result, [draw.randrange(1, 256) if at in places[:lost] else 0 for at in range(len(word))]


def differing(old, new):
    """How many symbols of a word changed, as a call tells it."""
    return 65535 if new is None else sum(a != b for a, b in zip(old, new))


def field_encode_cases(draw):
    """Codes over fields, over many words, of which some are changed."""
    for modulus, symbols, data, first, root in FIELD_CODES:
        bits, code = modulus.bit_length() - 1, (words_of(modulus), symbols, data, first, root)
        roots = definitions.field_code_roots(modulus, symbols, data, first, root)
        for count in (0, 1, 4):
            words = [definitions.word_with_roots(modulus, roots, [draw.getrandbits(bits) for _ in range(data)]) for _ in range(count)]
            # What stands behind the data is not read, and need not be elements.
            drawn_ends = [[*it[:data], *(draw.getrandbits(16) for _ in roots)] for it in words]
            yield case("field_code_encode", *code, (sum(drawn_ends, []), sum(words, [])), symbols - data + 1)
            for at in range(1, count, 2):
                words[at][draw.randrange(symbols)] ^= 1 << draw.randrange(bits)
            values = [[definitions.code_value(modulus, it, x) for x in roots] for it in words]
            yield case("field_code_syndromes", *code, sum(words, []), sum(values, []))
            yield case("field_code_are_words", *code, sum(words, []), [int(not any(it)) for it in values])
            yield refused(case("field_code_syndromes", *code, sum(words, []), [*sum(values, []), 0]), "BF_LENGTH")
            yield refused(case("field_code_encode", *code, ([*sum(words, []), 1], []), symbols - data + 1), "BF_LENGTH")
            if count and bits < 16:
                for at in (0, data - 1, (count - 1) * symbols, count * symbols - 1):
                    wrong = sum(words, [])
                    wrong[at] |= 1 << bits
                    yield refused(case("field_code_syndromes", *code, wrong, sum(values, [])), "BF_NOT_AN_ELEMENT")
                    yield refused(case("field_code_are_words", *code, wrong, [0] * count), "BF_NOT_AN_ELEMENT")
                    yield refused(case("field_code_correct", *code, (wrong, wrong), [], [0] * count, *spaces(symbols, data)), "BF_NOT_AN_ELEMENT")
                    if at % symbols < data:
                        yield refused(case("field_code_encode", *code, (wrong, wrong), symbols - data + 1), "BF_NOT_AN_ELEMENT")
    for modulus, symbols, data, first, root in NO_FIELD_CODES:
        yield from refusals((words_of(modulus), symbols, data, first, root), "BF_CODE")
    for field in (0, definitions.field_words(4, 0b101), definitions.field_words(8, 0x11D)):
        yield from refusals((field, 5, 3, 0, 2), "BF_REDUCIBLE")


def refusals(code, status):
    """Each call of what is no code."""
    for words in ([], [0] * 10):
        yield refused(case("field_code_encode", *code, (words, words), 3), status)
        yield refused(case("field_code_syndromes", *code, words, [0] * 4), status)
        yield refused(case("field_code_are_words", *code, words, [0] * 2), status)
        yield refused(case("field_code_correct", *code, (words, words), [], [0] * 2, 23, 10, 5), status)


def correction(name, code, received, flags, meant, spaces_are=()):
    """The cases of some words, with flags and, where none is erased, without."""
    after = [old if new is None else new for old, new in zip(received, meant)]
    counts = [differing(*it) for it in zip(received, meant)]
    given = sum(flags, [])
    for erased in [given] if any(given) else [given, []]:
        yield case(name, *code, (sum(received, []), sum(after, [])), erased, counts, *spaces_are)


def field_correct_cases(draw):
    """Words with errors and erased symbols, up to as many as a code corrects and beyond."""
    for modulus, symbols, data, first, root in FIELD_CODES:
        bits, code, checks = modulus.bit_length() - 1, (words_of(modulus), symbols, data, first, root), symbols - data
        roots = definitions.field_code_roots(modulus, symbols, data, first, root)
        for lost in sorted({0, checks // 2, checks}):
            sent = [definitions.word_with_roots(modulus, roots, [draw.getrandbits(bits) for _ in range(data)]) for _ in range(3)]
            received, flags = zip(*(changed(draw, it, bits, lost, draw.randrange((checks - lost) // 2 + 1)) for it in sent))
            yield from correction("field_code_correct", code, received, flags, sent, spaces(symbols, data))
        # One more than can be erased, in a word of the code.
        flags = [[1] * (checks + 1) + [0] * (data - 1)]
        yield from correction("field_code_correct", code, sent[:1], flags, [None], spaces(symbols, data))
    for modulus, symbols, data, first, root in FEW_WORDS:
        bits, code, checks = modulus.bit_length() - 1, (words_of(modulus), symbols, data, first, root), symbols - data
        roots = definitions.field_code_roots(modulus, symbols, data, first, root)
        words = [definitions.word_with_roots(modulus, roots, [it]) for it in range(1 << bits)]
        received, flags = zip(*(changed(draw, draw.choice(words), bits, draw.randrange(checks + 1), draw.randrange(checks + 1)) for _ in range(40)))
        meant = [definitions.code_meant(checks, words, *it) for it in zip(received, flags)]
        yield from correction("field_code_correct", code, received, flags, meant, spaces(symbols, data))
    code, words = (words_of(0x13), 5, 1, 1, 2), [0] * 15
    for length, flags, count, space, marks, places in (
        (14, 0, 2, 33, 10, 5), (15, 14, 3, 33, 10, 5), (15, 1, 3, 33, 10, 5), (15, 15, 2, 33, 10, 5), (15, 15, 4, 33, 10, 5), (15, 0, 3, 32, 10, 5),
        (15, 0, 3, 34, 10, 5), (15, 0, 3, 33, 9, 5), (15, 0, 3, 33, 11, 5), (15, 0, 3, 33, 10, 4), (15, 0, 3, 33, 10, 6),
    ):
        yield refused(case("field_code_correct", *code, (words[:length],) * 2, [0] * flags, [0] * count, space, marks, places), "BF_LENGTH")


def binary_word(code, data):
    """The word of a binary code with these data."""
    return definitions.word_with_roots(code[0], definitions.bch_roots(*code), data)


def binary_cases(draw):
    """Binary codes, over words with and without errors."""
    for code in [*BINARY_CODES, *FEW_BITS]:
        modulus, bits, errors, _ = code
        count = bits - len(definitions.bch_roots(*code))
        yield case("bch_data", *code, [count])
        for words_are in (0, 1, 3):
            sent = [binary_word(code, [draw.getrandbits(1) for _ in range(count)]) for _ in range(words_are)]
            assert all(set(it) <= {0, 1} for it in sent)
            drawn_ends = [[*it[:count], *draw.randbytes(bits - count)] for it in sent]
            yield case("bch_encode", *code, (sum(drawn_ends, []), sum(sent, [])))
            yield case("bch_are_words", *code, sum(sent, []), [1] * words_are)
            yield refused(case("bch_are_words", *code, sum(sent, []), [1] * (words_are + 1)), "BF_LENGTH")
            yield refused(case("bch_encode", *code, ([*sum(sent, []), 1], [])), "BF_LENGTH")
            for at in {0, count - 1, (words_are - 1) * bits} if words_are else ():
                wrong = sum(sent, [])
                wrong[at] = draw.randrange(2, 256)
                yield refused(case("bch_encode", *code, (wrong, wrong)), "BF_NOT_AN_ELEMENT")
                yield case("bch_are_words", *code, wrong, [int(place != at // bits) for place in range(words_are)])
        for lost in sorted({0, errors, 2 * errors}):
            received, flags = zip(*(changed(draw, it, 1, lost, draw.randrange((2 * errors - lost) // 2 + 1)) for it in sent))
            yield from correction("bch_correct", code, received, flags, sent)
        # A byte that is no bit is a wrong one.
        received = [[*sent[0][:-1], 255]]
        yield from correction("bch_correct", code, received, [[0] * bits], sent[:1])
    for code in FEW_BITS:
        bits, errors = code[1:3]
        count = bits - len(definitions.bch_roots(*code))
        words = [binary_word(code, [it >> place & 1 for place in range(count)]) for it in range(1 << count)]
        received, flags = zip(*(changed(draw, draw.choice(words), 1, draw.randrange(2 * errors + 2), draw.randrange(errors + 3)) for _ in range(40)))
        meant = [definitions.code_meant(2 * errors, words, *it) for it in zip(received, flags)]
        yield from correction("bch_correct", code, received, flags, meant)
    words = [0] * 30
    for length, flags, count in ((29, 0, 1), (30, 29, 2), (30, 1, 2), (30, 15, 2), (30, 30, 1), (30, 30, 3)):
        yield refused(case("bch_correct", 0x11D, 15, 2, 17, (words[:length],) * 2, [0] * flags, [0] * count), "BF_LENGTH")
    for code in NO_BINARY_CODES:
        yield refused(case("bch_data", *code, [0]), "BF_CODE")
        yield refused(case("bch_encode", *code, (words, words)), "BF_CODE")
        yield refused(case("bch_are_words", *code, words, [0] * 2), "BF_CODE")
        yield refused(case("bch_correct", *code, (words, words), [], [0] * 2), "BF_CODE")


CASES = (field_encode_cases, field_correct_cases, binary_cases)
