/* Words of codes that correct errors, exchanged with libfec (Debian's package libfec-dev).
 *
 *   gcc -std=c99 -O2 -I include -o check tests/check_codes.c build/lib/libbinary_field.a -lfec && ./check [WORDS]
 *
 * Of each code so many drawn words (1,000): what libfec puts behind the data is what the library puts there, and each finds no error in the
 * other's word. Then the words are changed at drawn places, some of which are told as erased, up to as many as the code corrects and beyond,
 * and both correct them. Where libfec leaves what is no word of the code, the library has to leave the word as it was; that is counted.
 * It prints what differs, then two lines a code, and ends with status 1 where anything differs.
 */
#include <binary_field.h>
#include <fec.h>
#include <stdio.h>
#include <stdlib.h>
#include <string.h>

/* A code, by what both are told. */
struct code {
    const char *name;
    unsigned modulus, symbols, data, first_root, root_step;
};

static const struct code CODES[] = {
    {"CCSDS (255, 223)", 0x187, 255, 223, 112, 11},
    {"CCSDS (255, 239)", 0x187, 255, 239, 120, 11},
    {"DVB (204, 188)", 0x11d, 204, 188, 0, 1},
    {"QR (26, 16)", 0x11d, 26, 16, 0, 1},
    {"(255, 1)", 0x11d, 255, 1, 1, 2},
    {"(5, 3)", 0x187, 5, 3, 7, 13},
};

static uint64_t state = 20261129;

static unsigned drawn(unsigned end) {
    state = state * 6364136223846793005u + 1442695040888963407u;
    return (unsigned)((state >> 33) % end);
}

static int differ(const struct code *code, const char *what, unsigned word) {
    printf("%s, word %u: %s\n", code->name, word, what);
    return 1;
}

/* Encodes drawn data by both, and lets each look at the words of the other. */
static int exchanged(const struct code *code, unsigned words) {
    size_t symbols = code->symbols, data = code->data, checks = symbols - data, length = words * symbols;
    uint8_t *ours = malloc(length), *theirs = malloc(length), *flags = malloc(words), *values = malloc(words * checks);
    void *rs = init_rs_char(8, (int)code->modulus, (int)code->first_root, (int)code->root_step, (int)checks, 255 - (int)symbols);
    int failed = 0;
    if (!ours || !theirs || !flags || !values || !rs) {
        puts("no memory, or no code for libfec");
        exit(1);
    }
    for (size_t at = 0; at < length; at++) {
        ours[at] = theirs[at] = (uint8_t)drawn(256);
    }
    if (bf_code_encode(code->modulus, symbols, data, code->first_root, code->root_step, ours, length)) {
        return differ(code, "refused", 0);
    }
    for (unsigned word = 0; word < words; word++) {
        uint8_t *it = theirs + word * symbols;
        encode_rs_char(rs, it, it + data);
        if (memcmp(it, ours + word * symbols, symbols)) {
            failed |= differ(code, "libfec encodes otherwise", word);
        }
        if (decode_rs_char(rs, ours + word * symbols, NULL, 0) != 0) {
            failed |= differ(code, "libfec finds errors in our word", word);
        }
    }
    if (bf_code_are_words(code->modulus, symbols, data, code->first_root, code->root_step, theirs, length, flags, words)
        || bf_code_syndromes(code->modulus, symbols, data, code->first_root, code->root_step, theirs, length, values, words * checks)) {
        return differ(code, "refused", 0);
    }
    for (unsigned word = 0; word < words; word++) {
        int zero = 1;
        for (size_t m = 0; m < checks; m++) {
            zero &= values[word * checks + m] == 0;
        }
        if (flags[word] != 1 || !zero) {
            failed |= differ(code, "errors in the word of libfec", word);
        }
    }
    free_rs_char(rs);
    free(ours), free(theirs), free(flags), free(values);
    return failed;
}

/* How many places two words differ at, but for those with a flag where there are flags. */
static unsigned distance(const uint8_t *left, const uint8_t *right, const uint8_t *flags, size_t symbols) {
    unsigned count = 0;
    for (size_t at = 0; at < symbols; at++) {
        count += left[at] != right[at] && !(flags && flags[at]);
    }
    return count;
}

/* Changes words at drawn places, and flags some of them. */
static void change(const struct code *code, uint8_t *words, uint8_t *flags, unsigned count) {
    unsigned symbols = code->symbols, checks = symbols - code->data;
    for (unsigned word = 0; word < count; word++, words += symbols, flags += symbols) {
        unsigned lost = drawn(checks + 1), wrong = drawn(checks - lost + 3);
        for (unsigned at = 0; at < lost; at++) {
            unsigned place = drawn(symbols);
            flags[place] = 1;
            words[place] = (uint8_t)drawn(256);
        }
        for (unsigned at = 0; at < wrong; at++) {
            words[drawn(symbols)] ^= (uint8_t)(1 + drawn(255));
        }
    }
}

/* Corrects a word by libfec, and says whether it does, to what is a word of the code (1), to something else (0) or not (-1). */
static int corrected_by_libfec(const struct code *code, void *rs, uint8_t *word, const uint8_t *flags) {
    int places[255], lost = 0;
    uint8_t is_word;
    for (unsigned at = 0; at < code->symbols; at++) {
        if (flags[at]) {
            places[lost++] = (int)at;
        }
    }
    if (decode_rs_char(rs, word, places, lost) < 0) {
        return -1;
    }
    if (bf_code_are_words(code->modulus, code->symbols, code->data, code->first_root, code->root_step, word, code->symbols, &is_word, 1)) {
        exit(differ(code, "refused", 0));
    }
    return is_word;
}

/* A word that was sent and received, the flags of its symbols, and what the library made of it. */
struct received {
    const uint8_t *sent, *read, *flags, *ours;
    unsigned changed;
};

/* How many words can be corrected, how many cannot, and of how many of these libfec leaves no word of the code. */
struct counts {
    unsigned near, far, no_words;
};

/* What is wrong with a word that was corrected, or nothing. */
static const char *compared(const struct code *code, void *rs, const struct received *it, struct counts *counts) {
    size_t symbols = code->symbols;
    unsigned checks = code->symbols - code->data, lost = 0;
    uint8_t theirs[255];
    memcpy(theirs, it->read, symbols);
    int found = corrected_by_libfec(code, rs, theirs, it->flags);
    for (size_t at = 0; at < symbols; at++) {
        lost += it->flags[at];
    }
    if (2 * distance(it->read, it->sent, it->flags, symbols) + lost <= checks) {
        counts->near++;
        if (memcmp(it->ours, it->sent, symbols) || it->changed != distance(it->read, it->sent, NULL, symbols)) {
            return "what was sent is not what the library leaves";
        }
        return found != 1 || memcmp(theirs, it->sent, symbols) ? "what was sent is not what libfec leaves" : NULL;
    }
    counts->far++;
    counts->no_words += found == 0;
    if (found == 1 && 2 * distance(it->read, theirs, it->flags, symbols) + lost <= checks) {
        return memcmp(it->ours, theirs, symbols) || it->changed == 65535 ? "libfec corrects to another word" : NULL;
    }
    return it->changed != 65535 || memcmp(it->ours, it->read, symbols) ? "the library corrects what libfec does not" : NULL;
}

/* Corrects drawn words that were changed by both. */
static int corrected(const struct code *code, unsigned words) {
    size_t symbols = code->symbols, data = code->data, length = words * symbols;
    uint8_t *sent = malloc(length), *read = malloc(length), *ours = malloc(length), *flags = calloc(length, 1);
    uint16_t *changed = malloc(words * sizeof *changed);
    void *rs = init_rs_char(8, (int)code->modulus, (int)code->first_root, (int)code->root_step, (int)(symbols - data), 255 - (int)symbols);
    struct counts counts = {0, 0, 0};
    int failed = 0;
    if (!sent || !read || !ours || !flags || !changed || !rs) {
        puts("no memory, or no code for libfec");
        exit(1);
    }
    for (size_t at = 0; at < length; at++) {
        sent[at] = (uint8_t)drawn(256);
    }
    if (bf_code_encode(code->modulus, symbols, data, code->first_root, code->root_step, sent, length)) {
        return differ(code, "refused", 0);
    }
    memcpy(read, sent, length);
    change(code, read, flags, words);
    memcpy(ours, read, length);
    if (bf_code_correct(code->modulus, symbols, data, code->first_root, code->root_step, ours, length, flags, length, changed, words)) {
        return differ(code, "refused", 0);
    }
    for (unsigned word = 0; word < words; word++) {
        size_t at = word * symbols;
        struct received it = {sent + at, read + at, flags + at, ours + at, changed[word]};
        const char *wrong = compared(code, rs, &it, &counts);
        failed |= wrong ? differ(code, wrong, word) : 0;
    }
    printf("%s: %u words that can be corrected and %u beyond; of %u libfec leaves no word of the code\n", code->name, counts.near, counts.far,
           counts.no_words);
    free_rs_char(rs);
    free(sent), free(read), free(ours), free(flags), free(changed);
    return failed;
}

int main(int count, char **arguments) {
    unsigned words = count > 1 ? (unsigned)atoi(arguments[1]) : 1000;
    int failed = 0;
    for (size_t at = 0; at < sizeof CODES / sizeof *CODES; at++) {
        if (exchanged(&CODES[at], words)) {
            failed = 1;
        } else {
            printf("%s: %u words are those of libfec\n", CODES[at].name, words);
        }
        failed |= corrected(&CODES[at], words);
    }
    return failed;
}
