/* What the choice between the forms of the library costs, and what it saves, on one core.
 *
 *   gcc -O2 -Iinclude -o calls bench/calls.c -ldl && ./calls BOTH V2 V3 [SAMPLES]
 *
 * The three are shared libraries that scripts/build-library made: of both forms, and of each alone (--cpu x86-64-v2, --cpu x86-64-v3).
 * In that of both a function is a jump to one of its forms; to the same that V2 has where BINARY_FIELD_PROCESSOR=x86-64-v2 is set. The
 * first rows are calls of one element, each of which waits for the one before. The others are products of slices of 1,024 elements, once
 * more with the upper halves of the registers of 256 bits in use before each call, as code that forgets `vzeroupper` leaves them. A
 * number is processor time in nanoseconds an element, the least of so many samples (200); the libraries take turns.
 */
#include "binary_field.h"
#include <dlfcn.h>
#include <stdio.h>
#include <stdlib.h>
#include <time.h>

enum { LIBRARIES = 3, LENGTH = 1024, TURNS = 20000, SLICES = 20 };

static const char *const names[LIBRARIES] = {"both", "v2", "v3"};
typedef uint32_t (*bytes_call)(const uint8_t *, size_t, const uint8_t *, size_t, uint8_t *, size_t);
typedef uint32_t (*wide_call)(const bf_u128 *, size_t, const bf_u128 *, size_t, bf_u128 *, size_t);
typedef uint32_t (*version_call)(void);

static struct library {
    version_call version;
    bytes_call multiply_bytes;
    wide_call multiply, multiply_tower;
} libraries[LIBRARIES];
static bf_u128 left[LENGTH], right[LENGTH], products[LENGTH];
static volatile uint32_t sink;

static double now(void) {
    struct timespec time;
    clock_gettime(CLOCK_THREAD_CPUTIME_ID, &time);
    return time.tv_sec * 1e9 + time.tv_nsec;
}

static void use_upper_halves(void) {
    __asm__ volatile("vpcmpeqd %%ymm15, %%ymm15, %%ymm15\n\tvpcmpeqd %%ymm0, %%ymm0, %%ymm0" : : : "xmm0", "xmm15");
}

static void end_use(void) {
    __asm__ volatile("vzeroupper");
}

/* The rows: what is called, TURNS times or over SLICES slices, and the nanoseconds of a call or an element. */
static double time_version(const struct library *it) {
    double begun = now();
    for (int i = 0; i < TURNS; i++) {
        sink = it->version();
    }
    return (now() - begun) / TURNS;
}

static double time_byte(const struct library *it) {
    uint8_t values[2] = {3, 3}, three = 3;
    double begun = now();
    for (int i = 0; i < TURNS; i++) {
        sink = it->multiply_bytes(&values[i & 1], 1, &three, 1, &values[~i & 1], 1);
    }
    return (now() - begun) / TURNS;
}

static double time_wide(wide_call call) {
    bf_u128 values[2] = {left[0], left[1]};
    double begun = now();
    for (int i = 0; i < TURNS; i++) {
        sink = call(&values[i & 1], 1, &right[0], 1, &values[~i & 1], 1);
    }
    return (now() - begun) / TURNS;
}

static double time_slices(wide_call call, int is_dirty) {
    double begun = now();
    for (int i = 0; i < SLICES; i++) {
        if (is_dirty) {
            use_upper_halves();
        }
        sink = call(left, LENGTH, right, LENGTH, products, LENGTH);
    }
    begun = (now() - begun) / SLICES / LENGTH;
    end_use();
    return begun;
}

static double ghash_one(const struct library *it) { return time_wide(it->multiply); }
static double ghash_slice(const struct library *it) { return time_slices(it->multiply, 0); }
static double ghash_dirty(const struct library *it) { return time_slices(it->multiply, 1); }
static double tower_slice(const struct library *it) { return time_slices(it->multiply_tower, 0); }
static double tower_dirty(const struct library *it) { return time_slices(it->multiply_tower, 1); }

static const struct {
    const char *name;
    double (*time)(const struct library *);
} rows[] = {
    {"bf_version", time_version}, {"bf_t8_multiply, one", time_byte}, {"bf_g128_multiply, one", ghash_one},
    {"bf_g128_multiply, 1024", ghash_slice}, {"the same, upper halves in use", ghash_dirty},
    {"bf_t128_multiply, 1024", tower_slice}, {"the same, upper halves in use", tower_dirty},
};

static void load(const char *path, struct library *it) {
    void *handle = dlopen(path, RTLD_NOW | RTLD_LOCAL);
    if (!handle) {
        fprintf(stderr, "%s\n", dlerror());
        exit(1);
    }
    it->version = (version_call)dlsym(handle, "bf_version");
    it->multiply_bytes = (bytes_call)dlsym(handle, "bf_t8_multiply");
    it->multiply = (wide_call)dlsym(handle, "bf_g128_multiply");
    it->multiply_tower = (wide_call)dlsym(handle, "bf_t128_multiply");
    printf("%s: %s\n", path, ((const char *(*)(void))dlsym(handle, "bf_processor"))());
}

int main(int count, char **words) {
    int samples = count > 4 ? atoi(words[4]) : 200;
    if (count < 4) {
        fputs("calls BOTH V2 V3 [SAMPLES]\n", stderr);
        return 2;
    }
    for (int i = 0; i < LIBRARIES; i++) {
        load(words[1 + i], &libraries[i]);
    }
    for (int i = 0; i < LENGTH; i++) {
        left[i] = (bf_u128){{i * 0x9e3779b97f4a7c15u + 1, i * 0xd1342543de82ef95u + 1}};
        right[i] = (bf_u128){{i * 0xaf251af3b0f025b5u + 1, i * 0xb564ef22ec7aece5u + 1}};
    }
    for (size_t row = 0; row < sizeof rows / sizeof rows[0]; row++) {
        double least[LIBRARIES] = {1e18, 1e18, 1e18};
        for (int sample = 0; sample < samples; sample++) {
            for (int i = 0; i < LIBRARIES; i++) {
                double found = rows[row].time(&libraries[i]);
                least[i] = found < least[i] ? found : least[i];
            }
        }
        printf("%-32s", rows[row].name);
        for (int i = 0; i < LIBRARIES; i++) {
            printf("  %s %8.2f", names[i], least[i]);
        }
        printf("\n");
    }
    return 0;
}
