/* Vectors of two words of 64 bits, the low one first, for x86-64 (SSE4.1 and pclmulqdq) and for ARM with its crypto extension. */
#ifndef BF_VECTORS_H
#define BF_VECTORS_H
#include <stdint.h>

#ifdef __aarch64__
#include <arm_neon.h>
typedef uint64x2_t V;
#define LOAD(p) vreinterpretq_u64_u8(vld1q_u8((const uint8_t *)(p)))
#define STORE(p, v) vst1q_u8((uint8_t *)(p), vreinterpretq_u8_u64(v))
#define XOR(a, b) veorq_u64(a, b)
#define AND(a, b) vandq_u64(a, b)
#define IS_ZERO(v) vceqzq_u64(v)
#define ZERO vdupq_n_u64(0)
#define PAIR(high, low) vcombine_u64(vcreate_u64(low), vcreate_u64(high))
#define LOW_WORD(v) vgetq_lane_u64(v, 0)
#define HIGH_WORD(v) vgetq_lane_u64(v, 1)
#define UP(v) vextq_u64(ZERO, v, 1)
#define DOWN(v) vextq_u64(v, ZERO, 1)
#define SWAP(v) vextq_u64(v, v, 1)
/* The carryless product of the halves that the digits of the number name: 0x10 is the low half of a by the high half of b. */
#define MUL(a, b, halves)                                                                                                       \
    vreinterpretq_u64_p128(vmull_p64((poly64_t)vgetq_lane_u64(a, (halves) & 1), (poly64_t)vgetq_lane_u64(b, (halves) >> 4)))
/* The bytes in the other order. */
#define REVERSED(v) SWAP(vreinterpretq_u64_u8(vrev64q_u8(vreinterpretq_u8_u64(v))))
#else
#ifdef __AVX2__
#include <immintrin.h>
#else /* these take a tenth of the time to read */
#include <smmintrin.h>
#include <wmmintrin.h>
#endif
typedef __m128i V;
#define LOAD(p) _mm_loadu_si128((const V *)(p))
#define STORE(p, v) _mm_storeu_si128((V *)(p), v)
#define XOR(a, b) _mm_xor_si128(a, b)
#define AND(a, b) _mm_and_si128(a, b)
#define IS_ZERO(v) _mm_cmpeq_epi64(v, ZERO)
#define ZERO _mm_setzero_si128()
#define PAIR(high, low) _mm_set_epi64x((long long)(high), (long long)(low))
#define LOW_WORD(v) ((uint64_t)_mm_cvtsi128_si64(v))
#define HIGH_WORD(v) ((uint64_t)_mm_extract_epi64(v, 1))
#define UP(v) _mm_slli_si128(v, 8)
#define DOWN(v) _mm_srli_si128(v, 8)
#define SWAP(v) _mm_shuffle_epi32(v, 0x4e)
#define MUL(a, b, halves) _mm_clmulepi64_si128(a, b, halves)
#define REVERSED(v) _mm_shuffle_epi8(v, _mm_set_epi8(0, 1, 2, 3, 4, 5, 6, 7, 8, 9, 10, 11, 12, 13, 14, 15))
#endif

/* A word as the low half, and the high half 0. On x86-64 a load or a move of one word. */
#ifdef __aarch64__
#define OF_WORD(word) PAIR(0, word)
#define WORD_AT(p) OF_WORD(*(const uint64_t *)(p))
#define STORE_WORD(p, v) (*(uint64_t *)(p) = LOW_WORD(v))
#else
#define OF_WORD(word) _mm_cvtsi64_si128((long long)(word))
#define WORD_AT(p) _mm_loadl_epi64((const V *)(p))
#define STORE_WORD(p, v) _mm_storel_epi64((V *)(p), v)
#endif
#endif
