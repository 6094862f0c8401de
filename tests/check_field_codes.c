/* Words of codes over fields that a caller chooses, exchanged with libfec (Debian's package libfec-dev), whose symbols are integers there.
 *
 *   gcc -std=c99 -O2 -I include -o check tests/check_field_codes.c build/lib/libbinary_field.a -lfec && ./check [WORDS]
 *
 * Of each code so many drawn words (100): what libfec puts behind the data is what the library puts there. Then the words are changed at drawn
 * places, some of which are told as erased, up to as many as the code corrects, and both correct them to what was sent; and at more, where
 * the library leaves the word or one of the code. It prints what differs, then a line a code, and ends with status 1 where anything differs.
 */
#include <binary_field.h>
#include <fec.h>
#include <stdio.h>
#include <stdlib.h>
#include <string.h>

/* A code, by what both are told: the element whose powers the roots are is x to the power of root_step. */
struct code {
    const char *name;
    unsigned degree, tail, symbols, data, first_root, root_step;
};

static const struct code CODES[] = {
    {"2^16 elements, the field of PAR2 (60, 40)", 16, 0x100b, 60, 40, 0, 1},
    {"2^16 elements (3000, 2984)", 16, 0x100b, 3000, 2984, 1, 7},
    {"2^12 elements (255, 223)", 12, 0x053, 255, 223, 120, 1},
    {"2^10 elements, as 100GBASE-KR4 has it (528, 514)", 10, 0x009, 528, 514, 0, 1},
    {"2^8 elements (204, 188)", 8, 0x1d, 204, 188, 0, 1},
    {"2^4 elements (15, 9)", 4, 0x3, 15, 9, 1, 1},
};

static uint64_t state = 20261129;

static unsigned drawn(unsigned end) {
    state = state * 6364136223846793005u + 1442695040888963407u;
    return (unsigned)((state >> 33) % end);
}

static int differ(const struct code *code, const char *what, unsigned word) {
    printf("%s, word %u: %s\n", code->name, word, what);
    return 1;
}

/* What belongs to a code: the field and the root of the library, libfec's code, and memory for one word. */
struct tools {
    bf_field field;
    uint64_t root;
    void *rs;
    unsigned *theirs;
    int *places;
    uint16_t *sent, *read, *ours, *space;
    uint8_t *flags;
    bool *marks;
    size_t *own_places;
};

static void *memory(size_t count, size_t size) {
    void *it = calloc(count, size);
    if (!it) {
        puts("no memory");
        exit(1);
    }
    return it;
}

static struct tools tools_of(const struct code *code) {
    struct tools t;
    size_t n = code->symbols, checks = n - code->data;
    bf_u128 tail = {{code->tail, 0}}, x = {{2, 0}}, root;
    if (bf_field_init(&t.field, code->degree, &tail) || bf_field_power(&t.field, &x, 1, code->root_step, &root, 1)) {
        puts("no field");
        exit(1);
    }
    t.root = root.words[0];
    t.rs = init_rs_int((int)code->degree, (int)(code->tail | 1u << code->degree), (int)code->first_root, (int)code->root_step, (int)checks,
                       (1 << code->degree) - 1 - (int)n);
    if (!t.rs) {
        puts("no code for libfec");
        exit(1);
    }
    t.theirs = memory(n, sizeof *t.theirs), t.places = memory(n, sizeof *t.places);
    t.sent = memory(n, sizeof *t.sent), t.read = memory(n, sizeof *t.read), t.ours = memory(n, sizeof *t.ours);
    t.space = memory(2 * n + 5 * checks + 3, sizeof *t.space), t.flags = memory(n, 1);
    t.marks = memory(2 * n, sizeof *t.marks), t.own_places = memory(n, sizeof *t.own_places);
    return t;
}

static void dispose(struct tools *t) {
    free_rs_int(t->rs);
    free(t->theirs), free(t->places), free(t->sent), free(t->read), free(t->ours), free(t->space), free(t->flags), free(t->marks);
    free(t->own_places);
}

static int same(const unsigned *theirs, const uint16_t *ours, size_t symbols) {
    for (size_t at = 0; at < symbols; at++) {
        if (theirs[at] != ours[at]) {
            return 0;
        }
    }
    return 1;
}

/* Encodes drawn data by both. */
static const char *encoded(const struct code *code, struct tools *t) {
    size_t n = code->symbols, k = code->data;
    uint8_t is_word;
    for (size_t at = 0; at < n; at++) {
        t->sent[at] = (uint16_t)drawn(1u << code->degree);
        t->theirs[at] = t->sent[at];
    }
    encode_rs_int(t->rs, t->theirs, t->theirs + k);
    if (bf_field_code_encode(&t->field, n, k, code->first_root, t->root, t->sent, n, t->space, n - k + 1)
        || bf_field_code_are_words(&t->field, n, k, code->first_root, t->root, t->sent, n, &is_word, 1)) {
        return "refused";
    }
    return !is_word ? "what the library encodes is no word" : same(t->theirs, t->sent, n) ? NULL : "libfec encodes otherwise";
}

/* Changes the word at `lost` places that are told and `wrong` others, and says how many symbols differ then. */
static unsigned change(const struct code *code, struct tools *t, unsigned lost, unsigned wrong) {
    size_t n = code->symbols;
    unsigned count = 0;
    memcpy(t->read, t->sent, n * sizeof *t->read);
    memset(t->flags, 0, n);
    for (unsigned at = 0; at < lost + wrong; at++) {
        unsigned place;
        do {
            place = drawn((unsigned)n);
        } while (t->flags[place] || t->read[place] != t->sent[place]);
        if (at < lost) {
            t->flags[place] = 1;
            t->places[at] = (int)place;
            t->read[place] = (uint16_t)drawn(1u << code->degree);
        } else {
            t->read[place] ^= (uint16_t)(1 + drawn((1u << code->degree) - 1));
        }
    }
    for (size_t at = 0; at < n; at++) {
        count += t->read[at] != t->sent[at];
    }
    return count;
}

/* Corrects what was read by the library, and says how many symbols changed. */
static uint16_t corrected(const struct code *code, struct tools *t) {
    size_t n = code->symbols, checks = n - code->data;
    uint16_t count;
    memcpy(t->ours, t->read, n * sizeof *t->ours);
    if (bf_field_code_correct(&t->field, n, code->data, code->first_root, t->root, t->ours, n, t->flags, n, &count, 1, t->space,
                              2 * n + 5 * checks + 3, t->marks, 2 * n, t->own_places, n)) {
        exit(differ(code, "refused", 0));
    }
    return count;
}

/* A word that both have to restore. */
static const char *restored(const struct code *code, struct tools *t) {
    size_t n = code->symbols;
    unsigned checks = (unsigned)(n - code->data), lost = drawn(checks + 1), count = change(code, t, lost, drawn((checks - lost) / 2 + 1));
    for (size_t at = 0; at < n; at++) {
        t->theirs[at] = t->read[at];
    }
    if (decode_rs_int(t->rs, t->theirs, t->places, (int)lost) < 0 || !same(t->theirs, t->sent, n)) {
        return "what was sent is not what libfec leaves";
    }
    return corrected(code, t) != count || memcmp(t->ours, t->sent, n * sizeof *t->ours) ? "what was sent is not what the library leaves" : NULL;
}

/* A word with more errors than the code corrects: it stays, or is within so many of a word of the code. */
static const char *beyond(const struct code *code, struct tools *t, unsigned *left) {
    size_t n = code->symbols;
    unsigned checks = (unsigned)(n - code->data), changed = 0;
    uint8_t is_word;
    change(code, t, 0, checks / 2 + 1 + drawn(2));
    uint16_t count = corrected(code, t);
    for (size_t at = 0; at < n; at++) {
        changed += t->read[at] != t->ours[at];
    }
    if (bf_field_code_are_words(&t->field, n, code->data, code->first_root, t->root, t->ours, n, &is_word, 1)) {
        return "refused";
    }
    *left += count == 65535;
    if (count == 65535) {
        return changed || is_word ? "a word that is near to none does not stay" : NULL;
    }
    return changed != count || !is_word || 2 * changed > checks ? "a word is not corrected to a near one" : NULL;
}

int main(int count, char **arguments) {
    unsigned words = count > 1 ? (unsigned)atoi(arguments[1]) : 100;
    int failed = 0;
    for (size_t at = 0; at < sizeof CODES / sizeof *CODES; at++) {
        const struct code *code = &CODES[at];
        struct tools t = tools_of(code);
        unsigned left = 0;
        for (unsigned word = 0; word < words; word++) {
            const char *wrong = encoded(code, &t);
            wrong = wrong ? wrong : restored(code, &t);
            wrong = wrong ? wrong : beyond(code, &t, &left);
            failed |= wrong ? differ(code, wrong, word) : 0;
        }
        printf("%s: %u words are those of libfec, and both restore them; of as many beyond that the library leaves %u\n", code->name, words, left);
        dispose(&t);
    }
    return failed;
}
