/* Products in the field of GHASH, from C:
 *     cc -I FOLDER/include tests/example.c FOLDER/lib/libbinary_field.a -o example && ./example */
#include <binary_field.h>
#include <stdio.h>

int main(void)
{
    const bf_u128 left[2] = {{{2, 0}}, {{0, (uint64_t)1 << 63}}}, right[2] = {{{3, 0}}, {{2, 0}}};
    bf_u128 products[2];
    uint32_t status = bf_g128_multiply(left, 2, right, 2, products, 2);
    int i;
    if (status != BF_OK) {
        fprintf(stderr, "%s\n", bf_status_text(status));
        return 1;
    }
    for (i = 0; i < 2; i++) {
        printf("%016llx%016llx\n", (unsigned long long)products[i].words[1], (unsigned long long)products[i].words[0]);
    }
    return 0;
}
