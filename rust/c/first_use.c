/* The first use from C in the repository's README. */

#include <inttypes.h>
#include <stdio.h>
#include <stdlib.h>

#include "divisor_index.h"

int main(void) {
    uint8_t maxima[16] = {1, 0, 0, 0, 1, 0, 0, 0, 1, 0, 0, 0, 1, 0, 0, 0}; /* one word a variable */
    uint32_t n = divisor_index_length(0, 4, 100, maxima, sizeof maxima); /* 4 variables, capacity 100 */
    uint8_t *image = malloc(n);
    if (image == NULL || divisor_index_open(0, 4, 100, maxima, sizeof maxima, image, n) != 0)
        return 1;
    uint32_t list[] = {0x60000000, 0x10000002, 1,  /* insert x0^2 */
                       0x60000001, 0x10000003, 1,  /* contained: x0^3 */
                       0x60000001, 0x10010001, 1}; /* contained: x1 */
    uint32_t answers[3];
    if (divisor_index_run(image, n, (uint8_t *)list, sizeof list, (uint8_t *)answers, sizeof answers) != 0)
        return 1;
    for (int i = 0; i < 3; i++)
        printf("%08" PRIx32 "\n", answers[i]); /* 40000000, its number; 40000001, yes; 40000000, no */
    free(image);
    return 0;
}
