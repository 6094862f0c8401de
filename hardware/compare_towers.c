/* The comparison of the group TOWERS: products of t64 and t128. They are bilinear where the changes of basis, which look up bytes, are
 * additive; that is compared too. */
#include "compare.h"

/* The changes of basis and the root, from the proved ones. */
static const char *fill_tables(void)
{
    static uint64_t bytes[8][256];
    bf_kernel_tables *t = &bf_kernel_table;
    bf_u128 root = bit(64), square;
    for (int place = 0; place < 8; place++)
        for (uint64_t byte = 0; byte < 256; byte++)
            bytes[place][byte] = byte << 8 * place;
    PROVED(bf_t64_to_p64(bytes[0], 2048, t->from_tower[0], 2048));
    PROVED(bf_p64_to_t64(bytes[0], 2048, t->to_tower[0], 2048));
    PROVED(bf_t128_multiply(&root, 1, &root, 1, &square, 1));
    PROVED(bf_t64_to_p64(square.words + 1, 1, &t->root, 1));
    return NULL;
}

/* The products of basis element i and of each. */
static const char *compare_row(const bf_kernels *k, int i)
{
    bf_u128 left[128], basis[128], got[128], want[128];
    write_basis(basis);
    for (int j = 0; j < 128; j++)
        left[j] = bit(i);
    k->t128_multiply(left, basis, got, 128);
    PROVED(bf_t128_multiply(left, 128, basis, 128, want, 128));
    SAME(!memcmp(got, want, sizeof got), "t128_multiply");
    return NULL;
}

static const char *compare_row_64(const bf_kernels *k, int i)
{
    uint64_t left[64], basis[64], got[64], want[64];
    for (int j = 0; j < 64; j++) {
        left[j] = 1ull << i;
        basis[j] = 1ull << j;
    }
    k->t64_multiply(left, basis, got, 64);
    PROVED(bf_t64_multiply(left, 64, basis, 64, want, 64));
    SAME(!memcmp(got, want, sizeof got), "t64_multiply");
    return NULL;
}

/* Each byte at a place, on either side, by 1: that the change of basis is additive in the byte. */
static const char *compare_bytes(const bf_kernels *k, int place)
{
    static bf_u128 values[256], ones[256], got[256];
    for (int byte = 0; byte < 256; byte++) {
        uint64_t word = (uint64_t)byte << 8 * (place % 8);
        values[byte] = (bf_u128){{place < 8 ? word : 0, place < 8 ? 0 : word}};
        ones[byte] = bit(0);
    }
    k->t128_multiply(values, ones, got, 256);
    SAME(!memcmp(got, values, sizeof got), "t128_multiply by 1");
    k->t128_multiply(ones, values, got, 256);
    SAME(!memcmp(got, values, sizeof got), "t128_multiply of 1");
    return NULL;
}

static const char *compare_bytes_64(const bf_kernels *k, int place)
{
    static uint64_t values[256], ones[256], got[256];
    for (uint64_t byte = 0; byte < 256; byte++) {
        values[byte] = byte << 8 * place;
        ones[byte] = 1;
    }
    k->t64_multiply(values, ones, got, 256);
    SAME(!memcmp(got, values, sizeof got), "t64_multiply by 1");
    k->t64_multiply(ones, values, got, 256);
    SAME(!memcmp(got, values, sizeof got), "t64_multiply of 1");
    return NULL;
}

/* Sums of all bytes, lengths, and results in the place of operands. */
static const char *compare_length(const bf_kernels *k, size_t n, uint64_t *state)
{
    bf_u128 a[LONGEST], b[LONGEST], want[LONGEST];
    uint64_t a64[LONGEST], b64[LONGEST], want64[LONGEST];
    draw(a, sizeof a, state);
    draw(b, sizeof b, state);
    draw(a64, sizeof a64, state);
    draw(b64, sizeof b64, state);
    memcpy(want, a, sizeof a);
    memcpy(want64, a64, sizeof a64);
    PROVED(bf_t128_multiply_in_place(want, n, b, n));
    PROVED(bf_t64_multiply_in_place(want64, n, b64, n));
    k->t128_multiply(a, b, a, n);
    k->t64_multiply(a64, b64, a64, n);
    SAME(!memcmp(a, want, sizeof a), "t128_multiply, lengths");
    SAME(!memcmp(a64, want64, sizeof a64), "t64_multiply, lengths");
    return NULL;
}

const char *bf_compare_towers(const bf_kernels *k)
{
    uint64_t state = 5;
    PART(fill_tables());
    for (int i = 0; i < 128; i++)
        PART(compare_row(k, i));
    for (int i = 0; i < 64; i++)
        PART(compare_row_64(k, i));
    for (int place = 0; place < 16; place++)
        PART(compare_bytes(k, place));
    for (int place = 0; place < 8; place++)
        PART(compare_bytes_64(k, place));
    for (size_t n = 0; n <= LONGEST; n++)
        for (int d = 0; d < DRAWS; d++)
            PART(compare_length(k, n, &state));
    return NULL;
}
