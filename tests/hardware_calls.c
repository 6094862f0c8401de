/* Calls each function of binary_field_hardware.h and the proved one of the same name with the same arguments, and compares statuses and
 * what they leave: before bf_hw_begin, by eight threads that begin at once, and behind it. Lengths are 0 to 40, and each array is also
 * one longer and one shorter than it should be. Hashes in pieces go on from states of messages, and from drawn bytes. An array has a block of
 * its own of exactly its bytes, so that sanitizers and valgrind see what reads or writes beside it, and an empty one is NULL.
 *
 *   hardware_calls [GROUPS [STATUS]]   the groups that begin, and the status that they have to begin with, BF_OK where none is named
 *
 * The exit status is 1 where something differs, and 77 where there is no instruction. */
#include "binary_field_hardware.h"

#include <pthread.h>
#include <stdio.h>
#include <stdlib.h>
#include <string.h>

/* SUM: where the sum of a hash in pieces stands in its state, of 16 bytes. */
enum { PARAMETERS = 5, LONGEST = 40, THREADS = 8, SUM = 64 };

struct buffer {
    unsigned char *data;
    size_t length;
};

struct function {
    const char *name;
    uint32_t (*proved)(struct buffer *);
    uint32_t (*kernel)(struct buffer *);
    int parameters;
    struct {
        const char *kind;
        size_t size;
        const char *name;
    } parameter[PARAMETERS];
};

#include "hardware_callers.h"

enum { FUNCTIONS = sizeof functions / sizeof *functions };
static uint32_t groups = BF_HW_ALL, expected = BF_OK;

static uint64_t drawn(uint64_t *state)
{
    uint64_t z = *state += 0x9e3779b97f4a7c15;
    z = (z ^ z >> 30) * 0xbf58476d1ce4e5b9;
    z = (z ^ z >> 27) * 0x94d049bb133111eb;
    return z ^ z >> 31;
}

static int is_array(const struct function *f, int i)
{
    const char *kind = f->parameter[i].kind;
    return !strcmp(kind, "in") || !strcmp(kind, "out") || !strcmp(kind, "inout");
}

/* The length of an array that fits, where the others are about n. */
static size_t length_of(const struct function *f, int i, size_t n)
{
    const char *name = f->parameter[i].name;
    if (!is_array(f, i))
        return 1;
    if (!strcmp(name, "key") || !strcmp(name, "hash"))
        return 16;
    if (!strcmp(name, "shifts"))
        return 4;
    if (!strcmp(name, "basis"))
        return 3 + n;
    if (strstr(f->name, "low_stages"))
        return 16 * (n % 9);
    if (strstr(f->name, "transform"))
        return (size_t)1 << n % 11;
    return strcmp(name, "coefficients") ? n : n % 7;
}

/* Makes drawn bytes the state of a drawn message of up to 40 bytes, under a key of the first of them. */
static void begin_message(const struct function *f, unsigned char *state, uint64_t *drawn_from)
{
    unsigned char message[LONGEST], key[16];
    size_t length = drawn(drawn_from) % (LONGEST + 1);
    for (size_t at = 0; at < LONGEST; at++)
        message[at] = (unsigned char)drawn(drawn_from);
    memcpy(key, state, 16);
    if (strstr(f->name, "ghash") ? bf_tag_ghash_init((bf_ghash_state *)state, key, 16) != BF_OK ||
                                       bf_tag_ghash_update((bf_ghash_state *)state, message, length) != BF_OK
                                 : bf_tag_polyval_init((bf_polyval_state *)state, key, 16) != BF_OK ||
                                       bf_tag_polyval_update((bf_polyval_state *)state, message, length) != BF_OK)
        exit(1);
}

/* What an argument holds before the call. Counts are small but for one in eight; every seventh element of an array is 0. */
static void fill(const struct function *f, int i, struct buffer *b, int is_strange, uint64_t *state)
{
    const char *kind = f->parameter[i].kind;
    size_t bytes = b->length * f->parameter[i].size;
    b->data = bytes ? malloc(bytes) : NULL;
    for (size_t at = 0; at < bytes; at++)
        b->data[at] = at / f->parameter[i].size % 7 == 5 ? 0 : (unsigned char)drawn(state);
    if (!strcmp(kind, "count")) {
        uint64_t count = drawn(state) % 8 ? drawn(state) % 5 : drawn(state);
        memcpy(b->data, &count, sizeof count);
    }
    if (!strcmp(kind, "state") && !is_strange)
        begin_message(f, b->data, state);
}

/* Whether an argument is the same behind both calls. Of a state that no function made nothing is said of its sum and of the hash. */
static int is_same(const struct function *f, int i, const struct buffer *a, const struct buffer *b, int is_strange)
{
    size_t bytes = a->length * f->parameter[i].size;
    if (is_strange && !strcmp(f->parameter[i].name, "hash"))
        return 1;
    if (is_strange && !strcmp(f->parameter[i].kind, "state"))
        return !memcmp(a->data, b->data, SUM) && !memcmp(a->data + SUM + 16, b->data + SUM + 16, bytes - SUM - 16);
    return !bytes || !memcmp(a->data, b->data, bytes);
}

/* One call of each, with the length of array `longer` changed; whether they differ. One state in four is of drawn bytes. */
static int differ(const struct function *f, size_t n, int longer, int change, uint64_t *state)
{
    struct buffer a[PARAMETERS], b[PARAMETERS];
    int is_strange = !strcmp(f->parameter[0].kind, "state") && drawn(state) % 4 == 0;
    for (int i = 0; i < f->parameters; i++) {
        size_t length = length_of(f, i, n);
        a[i].length = b[i].length = i == longer && (change > 0 || length) ? length + (size_t)change : length;
        fill(f, i, &a[i], is_strange, state);
        size_t bytes = a[i].length * f->parameter[i].size;
        b[i].data = bytes ? malloc(bytes) : NULL;
        if (bytes)
            memcpy(b[i].data, a[i].data, bytes);
    }
    uint32_t want = f->proved(a), got = f->kernel(b);
    int wrong = want != got;
    for (int i = 0; i < f->parameters; i++) {
        wrong |= !is_same(f, i, &a[i], &b[i], is_strange);
        free(a[i].data);
        free(b[i].data);
    }
    if (wrong)
        printf("bf_hw_%s at %lu, parameter %d by %d: status %u and %u\n", f->name, (unsigned long)n, longer, change, got, want);
    return wrong;
}

static long compare(uint64_t seed, size_t step, int is_told)
{
    long calls = 0, wrong = 0;
    for (int at = 0; at < FUNCTIONS; at++)
        for (size_t n = 0; n <= LONGEST; n += step) {
            const struct function *f = &functions[at];
            for (int i = -1; i < f->parameters; i++)
                for (int change = -1; change <= 1; change += 2)
                    if (i >= 0 ? is_array(f, i) : change > 0) {
                        wrong += differ(f, n, i, change, &seed);
                        calls++;
                    }
        }
    if (is_told)
        printf("hardware_calls: %ld calls, %ld differ\n", calls, wrong);
    return wrong;
}

static void *begin_and_compare(void *result)
{
    uint32_t status = bf_hw_begin(groups);
    *(long *)result = status == expected || status == BF_NO_HARDWARE ? compare((uint64_t)(size_t)result, 13, 0) : 1;
    return NULL;
}

int main(int count, char **words)
{
    pthread_t threads[THREADS];
    long results[THREADS], wrong = 0;
    uint32_t status;
    groups = count > 1 ? (uint32_t)strtoul(words[1], NULL, 10) : BF_HW_ALL;
    expected = count > 2 ? (uint32_t)strtoul(words[2], NULL, 10) : BF_OK;
    wrong += bf_hw_groups() != 0;
    wrong += compare(1, 5, 1);
    for (int i = 0; i < THREADS; i++)
        if (pthread_create(&threads[i], NULL, begin_and_compare, &results[i]))
            return puts("no thread can be made"), 1;
    for (int i = 0; i < THREADS; i++) {
        pthread_join(threads[i], NULL);
        wrong += results[i];
    }
    status = bf_hw_begin(groups);
    wrong += bf_hw_groups() != (status == BF_OK ? groups & BF_HW_ALL : 0);
    wrong += bf_hw_begin(0) != BF_OK;
    wrong += compare(2, 1, 1);
    printf("hardware_calls: groups %u, status %u, and %u go by kernels\n", groups, status, bf_hw_groups());
    return wrong ? 1 : status == BF_NO_HARDWARE ? 77 : status != expected;
}
