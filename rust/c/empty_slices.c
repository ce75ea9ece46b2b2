/* A slice of length 0 may be a null pointer, in every place of every function: it is
 * judged as any slice of that length. C and C++. */

#include <stdio.h>

#include "divisor_index.h"

static int wrong = 0;

static void expect(const char *call, uint64_t returned, uint64_t expected) {
    if (returned == expected)
        return;
    wrong = 1;
    fprintf(stderr, "%s returned %llx and not %llx\n", call, (unsigned long long)returned,
            (unsigned long long)expected);
}

#define EXPECT(expected, call) expect(#call, call, expected)

static const uint8_t one[4] = {0, 0, 0, 0};
static const uint8_t maxima[4] = {1, 0, 0, 0};
static uint8_t out[4], image[1000];

static void index_functions(void) {
    /* Insert one. */
    const uint8_t list[8] = {0, 0, 0, 0x60, 0, 0, 0, 0};
    EXPECT(1, divisor_index_length(0, 1, 2, NULL, 0));
    EXPECT(1, divisor_index_open(0, 1, 2, NULL, 0, image, sizeof image));
    EXPECT(2, divisor_index_open(0, 1, 2, maxima, 4, NULL, 0));
    EXPECT(3, divisor_index_check(NULL, 0));
    EXPECT(3, divisor_index_run(NULL, 0, list, 8, out, 4));
    EXPECT(3, divisor_index_list(NULL, 0, out, 4));

    EXPECT(0, divisor_index_open(0, 1, 2, maxima, 4, image, sizeof image));
    EXPECT(0, divisor_index_run(image, sizeof image, NULL, 0, NULL, 0));
    EXPECT(0, divisor_index_list(image, sizeof image, NULL, 0));
    EXPECT(5, divisor_index_run(image, sizeof image, list, 8, NULL, 0));
    EXPECT(0, divisor_index_run(image, sizeof image, list, 8, out, 4));
    EXPECT(5, divisor_index_list(image, sizeof image, NULL, 0));
}

typedef uint32_t on_two(uint32_t, const uint8_t *, size_t, const uint8_t *, size_t, uint8_t *, size_t);

static void functions_on_two(void) {
    static on_two *const all[] = {
        divisor_index_monomial_gcd,
        divisor_index_monomial_mul,
        divisor_index_monomial_whole_division,
        divisor_index_monomial_fraction_division,
        divisor_index_monomial_divides,
        divisor_index_monomial_eq,
        divisor_index_monomial_cmp,
        divisor_index_ratio_eq,
        divisor_index_ratio_cmp,
    };
    for (size_t i = 0; i < sizeof all / sizeof *all; i++) {
        EXPECT(7, all[i](1, NULL, 0, one, 4, out, 4));
        EXPECT(7, all[i](1, one, 4, NULL, 0, out, 4));
        EXPECT(5, all[i](1, one, 4, one, 4, NULL, 0));
    }
}

static void masks_and_maxima(void) {
    uint8_t raised[4] = {1, 0, 0, 0};
    EXPECT(1, divisor_index_divmask_mask(1, NULL, 0, one, 4, out, 4));
    EXPECT(7, divisor_index_divmask_mask(1, maxima, 4, NULL, 0, out, 4));
    EXPECT(5, divisor_index_divmask_mask(1, maxima, 4, one, 4, NULL, 0));
    EXPECT(1, divisor_index_divmask_update(1, NULL, 0, one, 4));
    EXPECT(7, divisor_index_divmask_update(1, raised, 4, NULL, 0));
    EXPECT(1, divisor_index_divmask_growth(1, NULL, 0, 20, out, 4));
    EXPECT(5, divisor_index_divmask_growth(1, maxima, 4, 20, NULL, 0));
}

static void label_map(void) {
    EXPECT(2, divisor_index_fast_compare_open(1, 1, NULL, 0));
    EXPECT((uint64_t)3 << 32, divisor_index_fast_compare_get_comparer(NULL, 0, 0, one, 4));
    EXPECT(3, divisor_index_fast_compare_rebuild(NULL, 0));
    EXPECT(0, divisor_index_fast_compare_open(1, 1, image, sizeof image));
    EXPECT((uint64_t)7 << 32, divisor_index_fast_compare_get_comparer(image, sizeof image, 0, NULL, 0));
}

int main(void) {
    index_functions();
    functions_on_two();
    masks_and_maxima();
    label_map();
    return wrong;
}
