/* Products and inverses of n by n matrices of this library beside M4RIE (Debian's libm4rie-dev), on one core.
 *
 *   gcc -O2 -o matrices bench/matrices.c build/lib/libbinary_field.a -lm4rie -lm4ri -lm && ./matrices [SAMPLES] [SECONDS]
 *
 * The first line names the processor whose form of the library is called; BINARY_FIELD_PROCESSOR=x86-64-v2 in the environment lowers it.
 * A number is processor time in nanoseconds divided by n^3, the least of the samples; a row ends before a size whose sample would take
 * more than SECONDS. M4RIE has other polynomials, and fields of up to 16 bits: its product, its reduced row echelon forms of the matrix and
 * of the matrix beside the identity, and its inverse by Newton-John tables. FLINT and NTL are timed by bench/matrices.cpp.
 */
#include <m4rie/m4rie.h>
#include <stdint.h>
#include <stdio.h>
#include <stdlib.h>
#include <time.h>

typedef struct {
    uint64_t low, high;
} wide;

const char *bf_processor(void);

#define CALLS(name, element)                                                                                                         \
    uint32_t bf_##name##_matrix_multiply(const element *, size_t, const element *, size_t, element *, size_t, size_t, size_t, size_t); \
    uint32_t bf_##name##_matrix_inverse(const element *, size_t, size_t, element *, size_t, element *, size_t, size_t *, size_t);
CALLS(t8, uint8_t)
CALLS(r8, uint8_t)
CALLS(t16, uint16_t)
CALLS(t32, uint32_t)
CALLS(t64, uint64_t)
CALLS(p64, uint64_t)
CALLS(t128, wide)
CALLS(g128, wide)

enum { MOST = 2048 };

static const size_t sizes[] = {8, 16, 31, 32, 64, 128, 256, 512, 1024, MOST};
static int samples = 5;
static double seconds = 30;
static void *left, *right, *made, *space;
static size_t places[MOST];

static double now(void) {
    struct timespec time;
    clock_gettime(CLOCK_THREAD_CPUTIME_ID, &time);
    return time.tv_sec * 1e9 + time.tv_nsec;
}

#define ROW(name, prepare, call)                                                                 \
    do {                                                                                         \
        double cubed = 0;                                                                        \
        printf("%-20s", name);                                                                   \
        for (size_t at = 0; at < sizeof sizes / sizeof *sizes; at++) {                           \
            size_t n = sizes[at], rounds = 1 + 200000 / (n * n * n);                             \
            double least = 1e18;                                                                 \
            if (cubed * n * n * n > seconds * 1e9) {                                             \
                break;                                                                           \
            }                                                                                    \
            prepare;                                                                             \
            for (int sample = 0; sample < samples; sample++) {                                   \
                double start = now();                                                            \
                for (size_t round = 0; round < rounds; round++) {                                \
                    call;                                                                        \
                }                                                                                \
                double time = (now() - start) / rounds / n / n / n;                              \
                least = time < least ? time : least;                                             \
            }                                                                                    \
            printf(" %8.3f", least);                                                             \
            cubed = least;                                                                       \
        }                                                                                        \
        printf("\n");                                                                            \
        fflush(stdout);                                                                          \
    } while (0)

static void checked(uint32_t status) {
    /* Of a drawn matrix it may be that there is no inverse. */
    if (status != 0 && status != 6) {
        fprintf(stderr, "matrices: status %u\n", status);
        exit(1);
    }
}

#define ROWS(name)                                                                                                                       \
    ROW(#name " product", , checked(bf_##name##_matrix_multiply(left, n * n, right, n * n, made, n * n, n, n, n)));                          \
    ROW(#name " inverse", , checked(bf_##name##_matrix_inverse(left, n * n, n, made, n * n, space, 2 * n * n, places, n)))

static void rows_of_m4rie(word polynomial) {
    gf2e *field = gf2e_init(polynomial);
    mzed_t *a = NULL, *b = NULL, *c = NULL;
    char name[4][32];
    static const char *const of[] = {"product", "echelon", "beside", "inverse"};
    for (int at = 0; at < 4; at++) {
        snprintf(name[at], sizeof name[at], "M4RIE %d %s", (int)field->degree, of[at]);
    }
    ROW(name[0], (a = mzed_init(field, n, n), b = mzed_init(field, n, n), c = mzed_init(field, n, n), mzed_randomize(a), mzed_randomize(b)),
        mzed_mul(c, a, b));
    ROW(name[1], (a = mzed_init(field, n, n), c = mzed_init(field, n, n), mzed_randomize(a)), (mzed_copy(c, a), mzed_echelonize(c, 1)));
    ROW(name[2],
        (a = mzed_init(field, n, n), b = mzed_init(field, n, n), mzed_randomize(a), mzed_set_ui(b, 1), a = mzed_concat(NULL, a, b),
         c = mzed_init(field, n, 2 * n)),
        (mzed_copy(c, a), mzed_echelonize(c, 1)));
    ROW(name[3], (a = mzed_init(field, n, n), c = mzed_init(field, n, n), mzed_randomize(a)), mzed_invert_newton_john(c, a));
}

int main(int arguments, char **argument) {
    size_t bytes = MOST * MOST * sizeof(wide);
    samples = arguments > 1 ? atoi(argument[1]) : samples;
    seconds = arguments > 2 ? atof(argument[2]) : seconds;
    left = malloc(bytes), right = malloc(bytes), made = malloc(bytes), space = malloc(2 * bytes);
    srand(1);
    for (size_t at = 0; at < bytes; at++) {
        ((uint8_t *)left)[at] = (uint8_t)(rand() >> 7);
        ((uint8_t *)right)[at] = (uint8_t)(rand() >> 7);
    }
    printf("%s\n%-20s", bf_processor(), "n");
    for (size_t at = 0; at < sizeof sizes / sizeof *sizes; at++) {
        printf(" %8zu", sizes[at]);
    }
    printf("\n");
    ROWS(t8);
    ROWS(r8);
    rows_of_m4rie(0x11d);
    ROWS(t16);
    rows_of_m4rie(0x1100b);
    ROWS(t32);
    ROWS(t64);
    ROWS(p64);
    ROWS(t128);
    ROWS(g128);
    return 0;
}
