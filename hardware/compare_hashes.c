/* The comparison of the group HASHES. POLYVAL's product is that of a field too, and that of x^i and x^j depends on i + j alone: 255 proved
 * hashes of one block stand for 16,384. A sum over blocks has a first block, to which the hash is added, and others, in a loop. */
#include "compare.h"

enum { MOST_BLOCKS = 8, LONGEST_MESSAGE = 400 };

static const char *powers_of_x(bf_u128 power[255])
{
    for (int i = 0; i < 255; i++) {
        bf_u128 a = bit(i < 128 ? i : 127), b = bit(i < 128 ? 0 : i - 127);
        PROVED(bf_tag_polyval((const uint8_t *)&a, 16, (const uint8_t *)&b, 16, (uint8_t *)(power + i), 16));
    }
    return NULL;
}

typedef void (*sum_of_blocks)(V *hash, const V *powers, const uint8_t *blocks, size_t n);

static bf_u128 reversed(bf_u128 block)
{
    return (bf_u128){{__builtin_bswap64(block.words[1]), __builtin_bswap64(block.words[0])}};
}

/* What a sum over two blocks gives for one power and one block, or for one power and the hash; all else is 0. */
static bf_u128 sum_at(sum_of_blocks some, V power, int place, bf_u128 block, bf_u128 hash)
{
    V powers[2] = {ZERO, ZERO}, h = in(hash);
    bf_u128 blocks[2] = {{{0, 0}}, {{0, 0}}};
    powers[place] = power;
    blocks[place] = block;
    some(&h, powers, (const uint8_t *)blocks, 2);
    return out(h);
}

/* The products of x^i and of each basis element: of the power by the first block, by the second, and by the hash. */
static const char *compare_row(const bf_kernels *k, const bf_u128 *power, int i)
{
    V a = in(bit(i));
    bf_u128 zero = {{0, 0}};
    for (int j = 0; j < 128; j++) {
        bf_u128 b = bit(j), turned = reversed(b), want = power[i + j];
        SAME(same(out(k->polyval_multiply(a, in(b))), want), "polyval_multiply");
        SAME(same(sum_at(k->polyval_blocks, a, 0, b, zero), want), "polyval_blocks, first");
        SAME(same(sum_at(k->polyval_blocks, a, 1, b, zero), want), "polyval_blocks, others");
        SAME(same(sum_at(k->polyval_blocks, a, 0, zero, b), want), "polyval_blocks, hash");
        SAME(same(sum_at(k->ghash_blocks, a, 0, turned, zero), want), "ghash_blocks, first");
        SAME(same(sum_at(k->ghash_blocks, a, 1, turned, zero), want), "ghash_blocks, others");
        SAME(same(sum_at(k->ghash_blocks, a, 0, zero, b), want), "ghash_blocks, hash");
    }
    return NULL;
}

/* Sums over n drawn blocks: what places might have to do with each other. */
static const char *compare_sums(const bf_kernels *k, size_t n, uint64_t *state)
{
    bf_u128 blocks[MOST_BLOCKS];
    V powers[MOST_BLOCKS], want = ZERO, hash = ZERO;
    draw(powers, sizeof powers, state);
    draw(blocks, sizeof blocks, state);
    for (size_t i = 0; i < n; i++)
        want = XOR(want, k->polyval_multiply(in(blocks[i]), powers[i]));
    k->polyval_blocks(&hash, powers, (const uint8_t *)blocks, n);
    SAME(same(out(hash), out(want)), "polyval_blocks, drawn");
    for (size_t i = 0; i < n; i++)
        blocks[i] = reversed(blocks[i]);
    hash = ZERO;
    k->ghash_blocks(&hash, powers, (const uint8_t *)blocks, n);
    SAME(same(out(hash), out(want)), "ghash_blocks, drawn");
    return NULL;
}

/* A hash of a message; one that goes on over the same message, whose last block was filled up with zeros; and the message in pieces, cut at
 * a place, whose states have the same bytes each time. */
#define COMPARE_MESSAGE(which)                                                                                                      \
    static const char *compare_##which(const bf_kernels *k, const uint8_t key[16], const uint8_t *message, size_t length, size_t cut) \
    {                                                                                                                               \
        uint8_t got[16] = {0}, want[16];                                                                                            \
        bf_##which##_state ours, theirs;                                                                                            \
        k->which(key, message, length, got);                                                                                        \
        PROVED(bf_tag_##which(key, 16, message, length, want, 16));                                                                 \
        SAME(!memcmp(got, want, 16), #which);                                                                                       \
        k->which##_init(ours.words, key);                                                                                           \
        PROVED(bf_tag_##which##_init(&theirs, key, 16));                                                                            \
        SAME(!memcmp(&ours, &theirs, sizeof ours), #which "_init");                                                                 \
        k->which##_update(ours.words, message, cut);                                                                                \
        PROVED(bf_tag_##which##_update(&theirs, message, cut));                                                                     \
        SAME(!memcmp(&ours, &theirs, sizeof ours), #which "_update");                                                               \
        k->which##_update(ours.words, message + cut, length - cut);                                                                 \
        PROVED(bf_tag_##which##_update(&theirs, message + cut, length - cut));                                                      \
        SAME(!memcmp(&ours, &theirs, sizeof ours), #which "_update again");                                                         \
        k->which##_pad(ours.words);                                                                                                 \
        PROVED(bf_tag_##which##_pad(&theirs));                                                                                      \
        SAME(!memcmp(&ours, &theirs, sizeof ours), #which "_pad");                                                                  \
        k->which(key, message, length, got);                                                                                        \
        k->which##_update(ours.words, message, length);                                                                             \
        PROVED(bf_tag_##which##_update(&theirs, message, length));                                                                  \
        k->which##_final(ours.words, want);                                                                                         \
        SAME(!memcmp(got, want, 16), #which ", going on");                                                                          \
        PROVED(bf_tag_##which##_final(&theirs, want, 16));                                                                          \
        SAME(!memcmp(got, want, 16) && !memcmp(&ours, &theirs, sizeof ours), #which "_final");                                      \
        return NULL;                                                                                                                \
    }
COMPARE_MESSAGE(ghash)
COMPARE_MESSAGE(polyval)

static const char *compare_message(const bf_kernels *k, size_t length, uint64_t *state)
{
    uint8_t message[LONGEST_MESSAGE], key[16];
    draw(message, sizeof message, state);
    draw(key, sizeof key, state);
    size_t cut = drawn(state) % (length + 1);
    PART(compare_ghash(k, key, message, length, cut));
    PART(compare_polyval(k, key, message, length, cut));
    return NULL;
}

const char *bf_compare_hashes(const bf_kernels *k)
{
    bf_u128 power[255];
    uint64_t state = 5;
    PART(powers_of_x(power));
    for (int i = 0; i < 128; i++)
        PART(compare_row(k, power, i));
    for (size_t n = 1; n <= MOST_BLOCKS; n++)
        for (int d = 0; d < 16; d++)
            PART(compare_sums(k, n, &state));
    for (size_t length = 0; length <= LONGEST_MESSAGE; length += length < 34 ? 1 : 13)
        PART(compare_message(k, length, &state));
    return NULL;
}
