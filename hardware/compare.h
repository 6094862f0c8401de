/* What the comparisons share: elements as vectors, drawn operands, and how a difference is told. */
#ifndef BF_COMPARE_H
#define BF_COMPARE_H
#include "hardware.h"
#include <string.h>

/* Ends the comparison with the name of what differs; a proved function that refuses is a difference too. */
#define SAME(condition, name)                                                                                                       \
    do {                                                                                                                            \
        if (!(condition))                                                                                                           \
            return name;                                                                                                            \
    } while (0)
#define PROVED(call) SAME((call) == BF_OK, #call)
/* Ends the comparison where a part of it did. */
#define PART(call)                                                                                                                  \
    do {                                                                                                                            \
        const char *found = call;                                                                                                   \
        if (found)                                                                                                                  \
            return found;                                                                                                           \
    } while (0)

/* The longest slice whose length and places are compared; check-object refuses a kernel that tells longer ones apart. */
enum { LONGEST = 20, DRAWS = 4 };

static inline V in(bf_u128 a) { return LOAD(&a); }

static inline bf_u128 out(V v)
{
    bf_u128 a;
    STORE(&a, v);
    return a;
}

/* x^i, or the element of the tower whose bit i alone is 1. */
static inline bf_u128 bit(int i)
{
    bf_u128 a = {{i < 64 ? 1ull << i : 0, i < 64 ? 0 : 1ull << (i - 64)}};
    return a;
}

static inline bf_u128 sum(bf_u128 a, bf_u128 b)
{
    a.words[0] ^= b.words[0];
    a.words[1] ^= b.words[1];
    return a;
}

static inline int same(bf_u128 a, bf_u128 b) { return a.words[0] == b.words[0] && a.words[1] == b.words[1]; }

/* Fills an array with all powers of x, from x^0. */
static inline void write_basis(bf_u128 basis[128])
{
    for (int i = 0; i < 128; i++)
        basis[i] = bit(i);
}

/* splitmix64, from a fixed state: each process compares the same operands. */
static inline uint64_t drawn(uint64_t *state)
{
    uint64_t z = *state += 0x9e3779b97f4a7c15;
    z = (z ^ z >> 30) * 0xbf58476d1ce4e5b9;
    z = (z ^ z >> 27) * 0x94d049bb133111eb;
    return z ^ z >> 31;
}

static inline void draw(void *to, size_t bytes, uint64_t *state)
{
    for (size_t i = 0; i + 8 <= bytes; i += 8) {
        uint64_t word = drawn(state);
        memcpy((char *)to + i, &word, 8);
    }
}
#endif
