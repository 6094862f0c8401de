/* What a program sees of the library's choice between its forms: a line each for a call that comes before the choice, for main, and for
 * eight threads, with what bf_processor says there and whether a product is right. */
#include <binary_field.h>

#include <pthread.h>
#include <stdio.h>
#include <string.h>

enum { COUNT = 300, THREADS = 8 };

struct finding {
    const char *processor;
    int is_right;
};

static struct finding before;

/* In GHASH's field x^127 times x is x^7 + x^2 + x + 1, at each of so many places that all bodies are run. */
static struct finding find(void)
{
    struct finding found;
    bf_u128 left[COUNT], right[COUNT], products[COUNT];
    int i;
    for (i = 0; i < COUNT; i++) {
        left[i].words[0] = 0;
        left[i].words[1] = (uint64_t)1 << 63;
        right[i].words[0] = 2;
        right[i].words[1] = 0;
    }
    found.processor = bf_processor();
    found.is_right = bf_g128_multiply(left, COUNT, right, COUNT, products, COUNT) == BF_OK;
    for (i = 0; i < COUNT; i++) {
        found.is_right = found.is_right && products[i].words[0] == 0x87 && products[i].words[1] == 0;
    }
    return found;
}

/* What stands in this section runs before the constructors of the program and of its libraries. */
static void find_early(void)
{
    before = find();
}
__attribute__((section(".preinit_array"), used)) static void (*const early)(void) = find_early;

static void *find_in_thread(void *place)
{
    *(struct finding *)place = find();
    return NULL;
}

static void print(const char *where, struct finding found)
{
    printf("%s: %s, %s\n", where, found.processor, found.is_right ? "right" : "WRONG");
}

int main(void)
{
    pthread_t threads[THREADS];
    struct finding found[THREADS];
    int i;
    print("before", before);
    print("main", find());
    for (i = 0; i < THREADS; i++) {
        if (pthread_create(&threads[i], NULL, find_in_thread, &found[i]) != 0) {
            return 2;
        }
    }
    for (i = 0; i < THREADS; i++) {
        if (pthread_join(threads[i], NULL) != 0) {
            return 2;
        }
        found[0].is_right = found[0].is_right && found[i].is_right && strcmp(found[i].processor, found[0].processor) == 0;
    }
    print("threads", found[0]);
    return 0;
}
