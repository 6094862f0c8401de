/* Words of a code that corrects errors, CCSDS (255, 223), beside libfec (Debian's package libfec-dev), on one core.
 *
 *   gcc -O2 -Iinclude -o correcting bench/correcting.c build/lib/libbinary_field.a -lfec && ./correcting [WORDS] [SAMPLES]
 *
 * The first line names the processor whose form of the library is called. Of so many words (1,000), encoded, looked at and corrected where
 * 16 symbols of each are wrong, in one call, as they stand interleaved, and in a call each, the microseconds a word, by turns with libfec, the least of so many samples
 * (9). What both write is compared. libfec looks at a word by decode_rs_char, which ends behind the syndromes where all are 0; its code is
 * made once, while a call of the library makes its own. The words that are corrected are copied within the time of both.
 */
#include "binary_field.h"
#include <fec.h>
#include <stdio.h>
#include <stdlib.h>
#include <string.h>
#include <time.h>

enum { SYMBOLS = 255, DATA = 223, CHECKS = SYMBOLS - DATA, ERRORS = CHECKS / 2 };
#define CODE 0x187, SYMBOLS, DATA, 112, 11

static double now(void) {
    struct timespec it;
    clock_gettime(CLOCK_PROCESS_CPUTIME_ID, &it);
    return it.tv_sec + 1e-9 * it.tv_nsec;
}

static uint8_t *words, *theirs, *received, *flags, *values;
static uint8_t *interleaved, *interleaved_values, *settled;
static uint16_t *corrected;
static void *rs;

static void fail(const char *what) {
    puts(what);
    exit(1);
}

static void encode_at_once(size_t count) {
    if (bf_code_encode(CODE, words, count * SYMBOLS)) fail("refused");
}

static void encode_interleaved(size_t count) {
    if (bf_code_encode_interleaved(CODE, interleaved, count * SYMBOLS)) fail("refused");
}

static void encode_each(size_t count) {
    for (size_t i = 0; i < count; i++) if (bf_code_encode(CODE, words + i * SYMBOLS, SYMBOLS)) fail("refused");
}

static void encode_theirs(size_t count) {
    for (size_t i = 0; i < count; i++) encode_rs_char(rs, theirs + i * SYMBOLS, theirs + i * SYMBOLS + DATA);
}

static void syndromes_at_once(size_t count) {
    if (bf_code_syndromes(CODE, words, count * SYMBOLS, values, count * CHECKS)) fail("refused");
}

static void syndromes_interleaved(size_t count) {
    if (bf_code_syndromes_interleaved(CODE, interleaved, count * SYMBOLS, interleaved_values, count * CHECKS)) fail("refused");
}

static void correct_interleaved(size_t count) {
    if (bf_code_correct_interleaved(CODE, interleaved, count * SYMBOLS, values, 0, interleaved_values, count * CHECKS, settled, count)) fail("refused");
}

static void test_at_once(size_t count) {
    if (bf_code_are_words(CODE, words, count * SYMBOLS, flags, count)) fail("refused");
}

static void test_each(size_t count) {
    for (size_t i = 0; i < count; i++) if (bf_code_are_words(CODE, words + i * SYMBOLS, SYMBOLS, flags + i, 1)) fail("refused");
}

static void test_theirs(size_t count) {
    for (size_t i = 0; i < count; i++) if (decode_rs_char(rs, theirs + i * SYMBOLS, NULL, 0)) fail("libfec finds an error");
}

static void correct_at_once(size_t count) {
    memcpy(words, received, count * SYMBOLS);
    if (bf_code_correct(CODE, words, count * SYMBOLS, values, 0, corrected, count)) fail("refused");
}

static void correct_each(size_t count) {
    memcpy(words, received, count * SYMBOLS);
    for (size_t i = 0; i < count; i++) {
        if (bf_code_correct(CODE, words + i * SYMBOLS, SYMBOLS, values, 0, corrected + i, 1)) fail("refused");
    }
}

static void correct_theirs(size_t count) {
    memcpy(theirs, received, count * SYMBOLS);
    for (size_t i = 0; i < count; i++) {
        if (decode_rs_char(rs, theirs + i * SYMBOLS, NULL, 0) != ERRORS) fail("libfec does not find the errors");
    }
}

/* Words as they stand interleaved. */
static void interleave(const uint8_t *from, size_t count) {
    for (size_t i = 0; i < count; i++) for (size_t at = 0; at < SYMBOLS; at++) interleaved[at * count + i] = from[i * SYMBOLS + at];
}

/* Whether these words stand there. */
static int stand_interleaved(const uint8_t *them, size_t count) {
    for (size_t i = 0; i < count; i++) for (size_t at = 0; at < SYMBOLS; at++) if (interleaved[at * count + i] != them[i * SYMBOLS + at]) return 0;
    return 1;
}

/* The words with errors at places that are spread over each. */
static void receive(size_t count) {
    encode_theirs(count);
    memcpy(received, theirs, count * SYMBOLS);
    for (size_t i = 0; i < count; i++) {
        for (size_t error = 0; error < ERRORS; error++) {
            received[i * SYMBOLS + (i + error * error) % SYMBOLS] ^= (uint8_t)(1 + (i + error) % 255);
        }
    }
}

static const struct {
    const char *name;
    void (*call)(size_t count);
} CALLS[] = {
    {"encode, in one call", encode_at_once}, {"encode, interleaved", encode_interleaved}, {"encode, a call each", encode_each},
    {"encode, libfec", encode_theirs}, {"syndromes, in one call", syndromes_at_once}, {"syndromes, interleaved", syndromes_interleaved},
    {"correct words without errors, interleaved", correct_interleaved}, {"are_words, in one call", test_at_once}, {"are_words, a call each", test_each},
    {"decode of words without errors, libfec", test_theirs},
    {"correct 16 errors, in one call", correct_at_once}, {"correct 16 errors, a call each", correct_each},
    {"correct 16 errors, libfec", correct_theirs},
};
enum { KINDS = sizeof CALLS / sizeof *CALLS };

int main(int given, char **arguments) {
    size_t count = given > 1 ? (size_t)atoi(arguments[1]) : 1000;
    int samples = given > 2 ? atoi(arguments[2]) : 9;
    double least[KINDS];
    words = malloc(count * SYMBOLS), theirs = malloc(count * SYMBOLS), received = malloc(count * SYMBOLS), flags = malloc(count);
    values = malloc(count * CHECKS), corrected = malloc(count * sizeof *corrected), settled = malloc(count);
    interleaved = malloc(count * SYMBOLS), interleaved_values = malloc(count * CHECKS);
    rs = init_rs_char(8, 0x187, 112, 11, CHECKS, 0);
    if (!words || !theirs || !received || !flags || !values || !corrected || !settled || !interleaved || !interleaved_values || !rs) {
        fail("no memory");
    }
    for (size_t i = 0; i < count * SYMBOLS; i++) words[i] = theirs[i] = (uint8_t)((i + 1) * 2654435761u >> 13);
    interleave(words, count);
    receive(count);
    for (int sample = 0; sample < samples; sample++) {
        for (int kind = 0; kind < KINDS; kind++) {
            double start = now();
            CALLS[kind].call(count);
            double taken = now() - start;
            if (sample == 0 || taken < least[kind]) least[kind] = taken;
        }
    }
    if (memcmp(words, theirs, count * SYMBOLS)) fail("the words differ");
    for (size_t i = 0; i < count; i++) if (flags[i] != 1 || corrected[i] != ERRORS) fail("no word of the code");
    if (!stand_interleaved(words, count)) fail("the interleaved words differ");
    interleave(received, count);
    correct_interleaved(count);
    if (!stand_interleaved(words, count)) fail("the interleaved words are not corrected");
    for (size_t i = 0; i < count; i++) if (!settled[i]) fail("an interleaved word is not corrected");
    puts(bf_processor());
    for (int kind = 0; kind < KINDS; kind++) printf("%-40s %8.2f us a word\n", CALLS[kind].name, least[kind] / count * 1e6);
    return 0;
}
