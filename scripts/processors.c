/* Which form of the functions is called. scripts/build-library links it into every library, beside what is proved; it is tested, not proved.
 *
 * A library of one form is compiled with BF_FORM, the name of that form. One of two forms has the page that scripts/function_table.py
 * writes: the name of a form, and the address of each function in it. At first these are of x86-64-v2, so that a call that comes before
 * the choice is right too. */
const char *bf_processor(void);

#ifdef BF_FORM

const char *bf_processor(void)
{
    return BF_FORM;
}

#else

#define _GNU_SOURCE
#include <cpuid.h>
#include <stddef.h>
#include <stdlib.h>
#include <string.h>
#include <sys/mman.h>

/* The bytes of a page of x86-64. The page that calls go by has nothing else in it. */
enum { PAGE = 4096 };
extern const void *bf_page[];
/* The same name and addresses for x86-64-v3, and how many they are. */
extern const void *const bf_page_of_v3[];
extern const size_t bf_page_entries;

const char *bf_processor(void)
{
    return (const char *)__atomic_load_n(&bf_page[0], __ATOMIC_RELAXED);
}

/* Whether the system saves the registers of 256 bits: bits 1 and 2 of its register XCR0, which is there where OSXSAVE says so. */
static int saves_wide_registers(void)
{
    unsigned low, high;
    __asm__("xgetbv" : "=a"(low), "=d"(high) : "c"(0));
    return (low & 6) == 6;
}

/* Whether everything is there that x86-64-v3 adds to x86-64-v2. */
static int has_x86_64_v3(void)
{
    const unsigned first = bit_FMA | bit_MOVBE | bit_OSXSAVE | bit_AVX | bit_F16C, seventh = bit_BMI | bit_AVX2 | bit_BMI2;
    unsigned a, b, c, d;
    if (!__get_cpuid(1, &a, &b, &c, &d) || (c & first) != first || !saves_wide_registers()) {
        return 0;
    }
    if (!__get_cpuid_count(7, 0, &a, &b, &c, &d) || (b & seventh) != seventh) {
        return 0;
    }
    return __get_cpuid(0x80000001, &a, &b, &c, &d) && (c & bit_LZCNT) != 0;
}

/* Before main, and when a shared library is loaded: the better form, unless the environment lowers it. Each address is written whole, so
 * that a call of another thread finds one of the two. Then nothing can write the page; where the system refuses that, it stays as it is. */
__attribute__((constructor(101))) static void choose(void)
{
    const char *asked = secure_getenv("BINARY_FIELD_PROCESSOR");
    size_t i;
    if ((asked == NULL || strcmp(asked, "x86-64-v2") != 0) && has_x86_64_v3()) {
        for (i = 0; i < bf_page_entries; i++) {
            __atomic_store_n(&bf_page[i], bf_page_of_v3[i], __ATOMIC_RELAXED);
        }
    }
    (void)mprotect(bf_page, PAGE, PROT_READ);
}

#endif
