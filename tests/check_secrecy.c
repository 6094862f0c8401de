/* Whether calls branch, or look up memory, by bytes of secrets: under valgrind, to which these bytes are undefined (A. Langley, ctgrind, 2010).
 *
 *   gcc -std=c99 -O1 -I include -o check tests/check_secrecy.c build/lib/libbinary_field.a && valgrind -q ./check
 *
 * memcheck reports each conditional jump and each address that depends on undefined bytes, through all that is computed of them. The secret
 * and the draws are undefined to bf_secret_split, and the shares to bf_secret_combine, indexes and counts are not: no report may come, but
 * one where there are more shares than are needed, for the test whether these agree, whatever the length is. So it is with the bytes of two
 * tags: one test comes at the end. Of bf_t8_multiply, which looks up tables, there have to be reports. It says how many calls it made, and
 * ends with status 1 where a count is another, and 2 where valgrind does not run it. Reports go to standard error.
 */
#include <binary_field.h>
#include <stdio.h>
#include <string.h>
#include <valgrind/memcheck.h>

enum { MOST = 200, SHARES = 9 };

static uint8_t secret[MOST], draws[MOST * SHARES], shares[MOST * SHARES], restored[MOST];
static const uint8_t INDEXES[SHARES] = {1, 2, 3, 4, 5, 6, 7, 8, 9};

/* The bytes become defined again, so that they may be looked at. */
static void define(void *bytes, size_t length) {
    (void)VALGRIND_MAKE_MEM_DEFINED(bytes, length);
}

static void undefine(void *bytes, size_t length) {
    (void)VALGRIND_MAKE_MEM_UNDEFINED(bytes, length);
}

static int told(const char *call, size_t length, size_t needed, size_t given, unsigned reports, unsigned wanted, uint32_t status) {
    define(&status, sizeof status);
    if (reports == wanted && !status) {
        return 0;
    }
    printf("%s, %zu bytes, %zu of %zu: %u reports, and not %u; status %u\n", call, length, needed, given, reports, wanted, (unsigned)status);
    return 1;
}

/* A secret of so many bytes is split and restored, from as many shares as are needed and from all. */
static int shared(uint64_t modulus, size_t length, size_t needed, size_t count) {
    int failed = 0;
    unsigned before;
    uint32_t status;
    for (size_t at = 0; at < length; at++) {
        secret[at] = (uint8_t)(7 * at + length);
    }
    for (size_t at = 0; at < (needed - 1) * length; at++) {
        draws[at] = (uint8_t)(at * at + 3 * at + needed);
    }
    undefine(secret, length), undefine(draws, (needed - 1) * length);
    before = VALGRIND_COUNT_ERRORS;
    status = bf_secret_split(modulus, needed, count, secret, length, draws, (needed - 1) * length, shares, count * length);
    failed |= told("bf_secret_split", length, needed, count, VALGRIND_COUNT_ERRORS - before, 0, status);
    for (size_t given = needed; given <= count; given += count > needed ? count - needed : 1) {
        undefine(shares, given * length);
        before = VALGRIND_COUNT_ERRORS;
        status = bf_secret_combine(modulus, needed, INDEXES, given, shares, given * length, restored, length);
        failed |= told("bf_secret_combine", length, needed, given, VALGRIND_COUNT_ERRORS - before, given > needed, status);
        define(restored, length), define(secret, length);
        if (memcmp(restored, secret, length)) {
            printf("bf_secret_combine, %zu bytes: another secret\n", length);
            failed = 1;
        }
    }
    define(shares, count * length), define(draws, (needed - 1) * length);
    return failed;
}

/* Tags of so many bytes are compared. */
static int compared(size_t length) {
    uint8_t equal = 7;
    unsigned before;
    uint32_t status;
    undefine(secret, length), undefine(restored, length);
    before = VALGRIND_COUNT_ERRORS;
    status = bf_tags_are_equal(secret, length, restored, length, &equal);
    unsigned reports = VALGRIND_COUNT_ERRORS - before;
    define(secret, length), define(restored, length), define(&equal, 1);
    /* The answer is a test of all bytes, by a jump or without. */
    return reports || status ? told("bf_tags_are_equal", length, 0, 0, reports, 1, status) : 0;
}

/* Whether look-ups in tables are reported. */
static int looks_up(void) {
    uint8_t left[3] = {3, 5, 7}, right[3] = {9, 11, 13}, product[3];
    unsigned before = VALGRIND_COUNT_ERRORS;
    undefine(left, sizeof left);
    if (bf_t8_multiply(left, 3, right, 3, product, 3)) {
        puts("bf_t8_multiply: refused");
    }
    return VALGRIND_COUNT_ERRORS > before;
}

int main(void) {
    static const size_t LENGTHS[] = {1, 2, 15, 16, 17, 33, 64, 100, MOST};
    int failed = 0;
    unsigned calls = 0;
    if (!RUNNING_ON_VALGRIND) {
        puts("it is to be run by valgrind");
        return 2;
    }
    for (size_t at = 0; at < sizeof LENGTHS / sizeof *LENGTHS; at++) {
        for (size_t needed = 2; needed <= 5; needed++) {
            for (size_t count = needed; count <= SHARES; count += 2, calls += 3) {
                failed |= shared(0x11b, LENGTHS[at], needed, count) | shared(0x11d, LENGTHS[at], needed, count);
            }
        }
        failed |= compared(LENGTHS[at]);
    }
    if (!looks_up()) {
        puts("look-ups in tables are not reported");
        failed = 1;
    }
    printf("%s: some %u calls, %s\n", bf_processor(), 2 * calls, failed ? "of which some go by secrets" : "none of which goes by a secret");
    return failed;
}
