/* The switch: which kernels the processor has the instructions for, and which groups were compared and go by them.
 *
 * A group's kernels are a pointer that bf_hw_begin stores once, behind the comparison and the tables that it wrote; so a thread sees
 * either none or all of it. */
#include "hardware.h"
#include <pthread.h>
#include <stdatomic.h>
#include <stddef.h>
#ifdef __aarch64__
#include <asm/hwcap.h>
#include <sys/auxv.h>
#endif

static _Atomic(const bf_kernels *) in_use[GROUPS];
static uint32_t outcomes[GROUPS];

static const bf_kernels *kernels_of_processor(void)
{
#ifdef __aarch64__
    return getauxval(AT_HWCAP) & HWCAP_PMULL ? &bf_kernels_neon : NULL;
#else
    __builtin_cpu_init();
    if (!__builtin_cpu_supports("pclmul") || !__builtin_cpu_supports("sse4.1"))
        return NULL;
    return __builtin_cpu_supports("avx2") ? &bf_kernels_avx2 : &bf_kernels_sse;
#endif
}

static void begin(int group, const char *(*compare)(const bf_kernels *))
{
    const bf_kernels *kernels = kernels_of_processor();
    outcomes[group] = !kernels ? BF_NO_HARDWARE : compare(kernels) ? BF_DIFFERENT : BF_OK;
    if (outcomes[group] == BF_OK)
        atomic_store_explicit(&in_use[group], kernels, memory_order_release);
}

static void begin_g128(void) { begin(G128, bf_compare_g128); }

static void begin_p64(void) { begin(P64, bf_compare_p64); }

static void begin_hashes(void) { begin(HASHES, bf_compare_hashes); }

static void begin_towers(void) { begin(TOWERS, bf_compare_towers); }

uint32_t bf_hw_begin(uint32_t groups)
{
    static pthread_once_t once[GROUPS] = {PTHREAD_ONCE_INIT, PTHREAD_ONCE_INIT, PTHREAD_ONCE_INIT, PTHREAD_ONCE_INIT};
    static void (*const begins[GROUPS])(void) = {begin_g128, begin_p64, begin_hashes, begin_towers};
    uint32_t outcome = BF_OK;
    for (int group = 0; group < GROUPS; group++)
        if (groups >> group & 1) {
            pthread_once(&once[group], begins[group]);
            outcome = outcomes[group] > outcome ? outcomes[group] : outcome;
        }
    return outcome;
}

const bf_kernels *bf_kernels_in_use(int group) { return atomic_load_explicit(&in_use[group], memory_order_acquire); }

uint32_t bf_hw_groups(void)
{
    uint32_t groups = 0;
    for (int group = 0; group < GROUPS; group++)
        groups |= (uint32_t)(bf_kernels_in_use(group) != NULL) << group;
    return groups;
}
