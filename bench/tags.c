/* GHASH and POLYVAL of this library beside BearSSL's GHASH in code of constant time without the carryless instruction (Debian's
 * libbearssl-dev), on one core.
 *
 *   gcc -O2 -o tags bench/tags.c build/lib/libbinary_field.a -lbearssl && ./tags [SAMPLES]
 *
 * The first line names the processor whose form of the library is called; BINARY_FIELD_PROCESSOR=x86-64-v2 in the environment lowers it.
 * A number is processor time in nanoseconds a byte of the message, the least of many samples taken by turns. Each call begins with the key.
 * BearSSL's are ctmul64, by products of 64 bits, and ctmul, by products of 32. The hashes of GHASH are compared.
 */
#include <bearssl.h>
#include <stdint.h>
#include <stdio.h>
#include <stdlib.h>
#include <string.h>
#include <time.h>

const char *bf_processor(void);
uint32_t bf_tag_ghash(const uint8_t *key, size_t key_length, const uint8_t *message, size_t message_length, uint8_t *hash, size_t hash_length);
uint32_t bf_tag_polyval(const uint8_t *key, size_t key_length, const uint8_t *message, size_t message_length, uint8_t *hash, size_t hash_length);

enum { MOST = 16384, SIDES = 4 };

static uint8_t key[16], message[MOST], hashes[SIDES][16];

static void ours(size_t length, uint8_t *hash) { (void)bf_tag_ghash(key, 16, message, length, hash, 16); }
static void polyval(size_t length, uint8_t *hash) { (void)bf_tag_polyval(key, 16, message, length, hash, 16); }

static void ctmul64(size_t length, uint8_t *hash) {
    memset(hash, 0, 16);
    br_ghash_ctmul64(hash, key, message, length);
}

static void ctmul(size_t length, uint8_t *hash) {
    memset(hash, 0, 16);
    br_ghash_ctmul(hash, key, message, length);
}

static double now(void) {
    struct timespec time;
    clock_gettime(CLOCK_PROCESS_CPUTIME_ID, &time);
    return time.tv_sec * 1e9 + time.tv_nsec;
}

int main(int count, char **words) {
    static const size_t lengths[] = {16, 64, 1024, MOST};
    static void (*const calls[SIDES])(size_t, uint8_t *) = {ours, polyval, ctmul64, ctmul};
    static const char *const names[SIDES] = {"GHASH", "POLYVAL", "BearSSL ctmul64", "BearSSL ctmul"};
    int samples = count > 1 ? atoi(words[1]) : 100;
    for (int i = 0; i < MOST; i++) {
        message[i] = rand() >> 7;
    }
    for (int i = 0; i < 16; i++) {
        key[i] = rand() >> 7;
    }
    puts(bf_processor());
    for (size_t n = 0; n < sizeof lengths / sizeof *lengths; n++) {
        double least[SIDES] = {1e18, 1e18, 1e18, 1e18};
        size_t length = lengths[n], rounds = 1 + 20000 / length;
        for (int sample = 0; sample < samples; sample++) {
            for (int side = 0; side < SIDES; side++) {
                double begin = now();
                for (size_t round = 0; round < rounds; round++) {
                    calls[side](length, hashes[side]);
                }
                double taken = (now() - begin) / rounds / length;
                least[side] = taken < least[side] ? taken : least[side];
            }
        }
        printf("%6zu bytes", length);
        for (int side = 0; side < SIDES; side++) {
            printf("  %s %.3f", names[side], least[side]);
        }
        puts(memcmp(hashes[0], hashes[2], 16) || memcmp(hashes[0], hashes[3], 16) ? "  differs" : "");
    }
    return 0;
}
