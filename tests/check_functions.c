/* Runs the cases that tests/write_cases.py wrote, and compares statuses and what the calls leave: check_functions FILE [STEP].
 * Of a case with many lengths each STEP-th is called, and the last. An array has a block of its own of exactly its bytes, so that
 * sanitizers and valgrind see what reads or writes beside it, and an empty one is NULL. */
#include "binary_field.h"

#include <stdio.h>
#include <stdlib.h>
#include <string.h>

enum { PARAMETERS = 11, FILL = 0xa5 };

/* One argument of a call: its bytes, at the end of a block. */
struct buffer {
    void *block;
    unsigned char *data;
    size_t length;
};

struct function {
    const char *name;
    uint32_t (*call)(struct buffer *);
};

#include "callers.h"

/* A parameter of a case: `count` words before and after the call; there are none before where a function only writes. */
struct parameter {
    char kind[8];
    size_t size;
    int cut;
    size_t count;
    unsigned char *before;
    unsigned char *after;
};

static int failures;

static void *allocate(size_t bytes)
{
    void *block = malloc(bytes ? bytes : 1);
    if (!block) {
        fputs("check_functions: no memory\n", stderr);
        exit(2);
    }
    return block;
}

/* The bytes of the next word of the file, or NULL where it is `-`. */
static unsigned char *read_bytes(FILE *file, size_t bytes)
{
    unsigned char *result;
    size_t i;
    int c;
    do {
        c = getc(file);
    } while (c == ' ');
    if (c == '-') {
        return NULL;
    }
    ungetc(c, file);
    result = (unsigned char *)allocate(bytes);
    for (i = 0; i < bytes; i++) {
        unsigned digit;
        if (fscanf(file, "%2x", &digit) != 1) {
            fputs("check_functions: the file ends early\n", stderr);
            exit(2);
        }
        result[i] = (unsigned char)digit;
    }
    return result;
}

/* Whether a parameter is one word and not an array. */
static int is_word(const struct parameter *it)
{
    return strcmp(it->kind, "scalar") == 0 || strcmp(it->kind, "number") == 0 || strcmp(it->kind, "result") == 0
        || strcmp(it->kind, "state") == 0;
}

/* One call with arrays cut to n elements. */
static void run(const struct function *function, uint32_t status, struct parameter *p, int parameters, size_t n)
{
    struct buffer b[PARAMETERS];
    uint32_t found;
    int i;
    for (i = 0; i < parameters; i++) {
        size_t count = is_word(&p[i]) ? 1 : p[i].cut ? n : p[i].count;
        size_t bytes = count * p[i].size;
        /* Words of 16 and 24 bytes have the alignment of 8, and no larger one in every other call. */
        size_t skipped = p[i].size > 8 && n % 2 ? 8 : 0;
        b[i].block = allocate(bytes + skipped);
        /* An empty array may have no place. */
        b[i].data = bytes ? (unsigned char *)b[i].block + skipped : NULL;
        b[i].length = count;
        if (bytes && p[i].before) {
            memcpy(b[i].data, p[i].before, bytes);
        } else if (bytes) {
            memset(b[i].data, FILL, bytes);
        }
    }
    found = function->call(b);
    if (found != status) {
        failures++;
        printf("check_functions: bf_%s at %lu: status %lu (%s), and not %lu\n", function->name, (unsigned long)n,
            (unsigned long)found, bf_status_text(found), (unsigned long)status);
    }
    for (i = 0; i < parameters; i++) {
        size_t bytes = b[i].length * p[i].size, at = 0;
        int is_result = strcmp(p[i].kind, "result") == 0;
        const unsigned char *after = p[i].after + (is_result && p[i].cut ? n * p[i].size : 0);
        int kept = status != BF_OK;
        /* Of space nothing is said. */
        if (strcmp(p[i].kind, "space") == 0) {
            at = bytes;
        }
        while (at < bytes && b[i].data[at] == (kept && !p[i].before ? FILL : kept ? p[i].before[at] : after[at])) {
            at++;
        }
        if (at < bytes) {
            failures++;
            printf("check_functions: bf_%s at %lu: parameter %d differs at byte %lu\n", function->name, (unsigned long)n, i,
                (unsigned long)at);
        }
        free(b[i].block);
    }
}

static const struct function *named(const char *name)
{
    size_t i;
    for (i = 0; i < sizeof functions / sizeof *functions; i++) {
        if (strcmp(functions[i].name, name) == 0) {
            return &functions[i];
        }
    }
    fprintf(stderr, "check_functions: no function %s\n", name);
    exit(2);
}

/* Shards that stand apart, by pointers, against shards one after the other; and the length of tables as a constant. */
static void run_pointers(void)
{
    enum { DATA = 5, PARITY = 6, SIZE = 67 };
    static uint8_t shards[(DATA + PARITY) * SIZE], apart[PARITY][SIZE], tables[BF_RS_TABLES_LENGTH(DATA, PARITY)];
    const uint8_t *sources[DATA];
    uint8_t *targets[PARITY];
    size_t i, j, wrong = 0;
    uint64_t length;
    for (i = 1; i < 256; i++) {
        for (j = 1; i + j <= 256; j++) {
            wrong += bf_rs_tables_length(i, j, &length) != BF_OK || length != BF_RS_TABLES_LENGTH(i, j);
        }
    }
    for (i = 0; i < DATA * SIZE; i++) {
        shards[i] = (uint8_t)(i * i + i / 7);
    }
    for (i = 0; i < DATA; i++) {
        sources[i] = shards + i * SIZE;
    }
    for (i = 0; i < PARITY; i++) {
        memset(targets[i] = apart[i], FILL, SIZE);
    }
    wrong += bf_rs_prepare(DATA, PARITY, tables, sizeof tables) != BF_OK || bf_rs_encode(DATA, PARITY, shards, sizeof shards) != BF_OK;
    wrong += bf_rs_encode_pointers(DATA, PARITY, tables, sizeof tables - 1, sources, targets, SIZE) != BF_LENGTH;
    wrong += bf_rs_encode_pointers(0, PARITY, tables, sizeof tables, sources, targets, SIZE) != BF_CODE;
    wrong += apart[0][0] != FILL || apart[PARITY - 1][SIZE - 1] != FILL;
    wrong += bf_rs_encode_pointers(DATA, PARITY, tables, sizeof tables, sources, targets, SIZE) != BF_OK;
    wrong += memcmp(apart, shards + DATA * SIZE, sizeof apart) != 0;
    if (wrong) {
        failures++;
        puts("check_functions: shards by pointers, or the lengths of tables, are wrong");
    }
}

/* Missing shards that stand apart, by pointers, against what they were; those without a pointer are left out. */
static void run_lost_pointers(void)
{
    enum { DATA = 5, PARITY = 3, TOTAL = DATA + PARITY, SIZE = 67 };
    static uint8_t shards[TOTAL * SIZE], restored[TOTAL][SIZE];
    uint8_t *pointers[TOTAL], present[TOTAL] = {1, 0, 1, 1, 0, 1, 0, 1};
    const uint8_t few[TOTAL] = {1, 0, 0, 1, 0, 1, 0, 1}, whole[TOTAL] = {1, 1, 2, 3, 4, 5, 6, 255};
    size_t i, wrong = 0;
    for (i = 0; i < DATA * SIZE; i++) {
        shards[i] = (uint8_t)(i * i + i / 5);
    }
    wrong += bf_rs_encode(DATA, PARITY, shards, sizeof shards) != BF_OK;
    for (i = 0; i < TOTAL; i++) {
        memset(restored[i], FILL, SIZE);
        pointers[i] = present[i] ? shards + i * SIZE : restored[i];
    }
    pointers[6] = NULL;
    wrong += bf_rs_reconstruct_pointers(0, PARITY, pointers, present, SIZE) != BF_CODE;
    wrong += bf_rs_reconstruct_pointers(DATA, PARITY, pointers, present, 0) != BF_LENGTH;
    wrong += bf_rs_reconstruct_pointers(DATA, PARITY, pointers, few, SIZE) != BF_TOO_FEW_SHARDS;
    wrong += bf_rs_reconstruct_pointers(DATA, PARITY, pointers, whole, SIZE) != BF_OK;
    wrong += restored[1][0] != FILL || restored[4][SIZE - 1] != FILL;
    wrong += bf_rs_reconstruct_pointers(DATA, PARITY, pointers, present, SIZE) != BF_OK;
    for (i = 0; i < TOTAL; i++) {
        wrong += pointers[i] && memcmp(pointers[i], shards + i * SIZE, SIZE) != 0;
    }
    wrong += restored[6][0] != FILL;
    if (wrong) {
        failures++;
        puts("check_functions: missing shards by pointers are wrong");
    }
}

/* A hash in pieces of so many bytes, and of its first half by a copy that does not go on, against those of whole messages. */
static size_t wrong_in_pieces(const uint8_t *message, size_t length, size_t piece)
{
    const uint8_t *key = message + 1;
    bf_ghash_state state, half;
    bf_polyval_state other;
    uint8_t hash[16], wanted[16];
    size_t at, wrong = bf_tag_ghash_init(&state, key, 16) != BF_OK || bf_tag_polyval_init(&other, key, 16) != BF_OK;
    half = state;
    wrong += bf_tag_ghash_update(&half, message, length / 2) != BF_OK;
    for (at = 0; at < length; at += piece) {
        size_t size = length - at < piece ? length - at : piece;
        wrong += bf_tag_ghash_update(&state, message + at, size) != BF_OK;
        wrong += bf_tag_polyval_update(&other, message + at, size) != BF_OK;
    }
    wrong += bf_tag_ghash(key, 16, message, length, wanted, 16) != BF_OK || bf_tag_ghash_final(&state, hash, 16) != BF_OK;
    wrong += memcmp(hash, wanted, 16) != 0;
    wrong += bf_tag_polyval(key, 16, message, length, wanted, 16) != BF_OK || bf_tag_polyval_final(&other, hash, 16) != BF_OK;
    wrong += memcmp(hash, wanted, 16) != 0;
    wrong += bf_tag_ghash(key, 16, message, length / 2, wanted, 16) != BF_OK || bf_tag_ghash_final(&half, hash, 16) != BF_OK;
    wrong += memcmp(hash, wanted, 16) != 0;
    /* Behind its end a hash is that of the empty message, under the same key. */
    wrong += bf_tag_ghash_update(&state, message, length / 2) != BF_OK || bf_tag_ghash_final(&state, hash, 16) != BF_OK;
    return wrong + (memcmp(hash, wanted, 16) != 0);
}

/* Hashes by states that no function made: every call returns, and writes its hash alone. */
static size_t wrong_by_any_state(const uint8_t *bytes, size_t length)
{
    bf_ghash_state state;
    bf_polyval_state other;
    uint8_t hash[18];
    memset(hash, FILL, sizeof hash);
    memcpy(&state, bytes, sizeof state);
    memcpy(&other, bytes, sizeof other);
    if (bf_tag_ghash_update(&state, bytes, length) != BF_OK || bf_tag_polyval_update(&other, bytes, length) != BF_OK) {
        return 1;
    }
    memcpy(&state, bytes, sizeof state);
    memcpy(&other, bytes, sizeof other);
    if (bf_tag_ghash_pad(&state) != BF_OK || bf_tag_polyval_pad(&other) != BF_OK) {
        return 1;
    }
    memcpy(&state, bytes, sizeof state);
    if (bf_tag_gcm_ghash_final(&state, length, 7, hash + 1, 16) != BF_OK) {
        return 1;
    }
    memcpy(&state, bytes, sizeof state);
    if (bf_tag_ghash_final(&state, hash + 1, 16) != BF_OK || bf_tag_polyval_final(&other, hash + 1, 16) != BF_OK) {
        return 1;
    }
    return hash[0] != FILL || hash[17] != FILL;
}

/* Messages in pieces, which C holds in a struct. */
static void run_pieces(void)
{
    static const size_t pieces[] = {1, 15, 16, 30, 64, 700}, lengths[] = {0, 1, 16, 47, 500, 1500, 2048};
    static uint8_t message[2048];
    size_t i, j, wrong = 0;
    for (i = 0; i < sizeof message; i++) {
        message[i] = (uint8_t)(i * i * 31 + i / 3);
    }
    for (i = 0; i < sizeof lengths / sizeof *lengths; i++) {
        for (j = 0; j < sizeof pieces / sizeof *pieces; j++) {
            wrong += wrong_in_pieces(message, lengths[i], pieces[j]);
        }
    }
    for (i = 0; i < 900; i += 7) {
        wrong += wrong_by_any_state(message + i, i);
    }
    memset(message, 0xff, sizeof message);
    wrong += wrong_by_any_state(message, 1100);
    if (wrong) {
        failures++;
        puts("check_functions: hashes in pieces are wrong");
    }
}

int main(int arguments, char **argument)
{
    FILE *file = arguments > 1 ? fopen(argument[1], "r") : NULL;
    long step = arguments > 2 ? strtol(argument[2], NULL, 10) : 1;
    unsigned long calls = 0, status;
    char name[64];
    long each;
    int parameters;
    if (!file || step < 1) {
        fputs("check_functions: usage: check_functions FILE [STEP]\n", stderr);
        return 2;
    }
    if (bf_version() != BF_VERSION) {
        failures++;
        puts("check_functions: the header and the library have different versions");
    }
    run_pointers();
    run_lost_pointers();
    run_pieces();
    while (fscanf(file, "%63s %lu %ld %d", name, &status, &each, &parameters) == 4) {
        struct parameter p[PARAMETERS];
        long n;
        int i;
        if (parameters > PARAMETERS) {
            fprintf(stderr, "check_functions: bf_%s has %d parameters, and there is room for %d\n", name, parameters, PARAMETERS);
            return 2;
        }
        for (i = 0; i < parameters; i++) {
            unsigned long size, count;
            if (fscanf(file, "%7s %lu %d %lu", p[i].kind, &size, &p[i].cut, &count) != 4) {
                fputs("check_functions: the file ends early\n", stderr);
                return 2;
            }
            p[i].size = size;
            p[i].count = count;
            p[i].before = read_bytes(file, p[i].size * p[i].count);
            p[i].after = read_bytes(file, p[i].size * p[i].count);
        }
        for (n = 0; n <= (each < 0 ? 0 : each); n += n < each && n + step > each ? each - n : step) {
            run(named(name), (uint32_t)status, p, parameters, (size_t)n);
            calls++;
        }
        for (i = 0; i < parameters; i++) {
            free(p[i].before);
            free(p[i].after);
        }
    }
    fclose(file);
    printf("check_functions: %lu calls, %d wrong\n", calls, failures);
    return failures != 0;
}
