/* tools: a merge of two halves, and a simulation. */
#include "lemidrosy.h"
#include <stdio.h>

int main(void) {
    const uint8_t first[] = {2, 0x20, 0, 0, 1}, second[] = {2, 0x40, 0, 0, 1};
    uint8_t trace[sizeof first + sizeof second];
    uint64_t figures[LEMIDROSY_FIGURES];
    uint64_t merged = lemidrosy_merge(first, sizeof first, second, sizeof second, 1, trace, sizeof trace);
    printf("merged:");
    for (uint32_t k = 0; k < lemidrosy_value(merged); k++)
        printf(" %02x", trace[k]);
    printf("\nthe other way round: refused with %u\n", lemidrosy_refused(lemidrosy_merge(first, sizeof first, second, sizeof second, 2, trace, sizeof trace)));
    lemidrosy_simulate(4, 10, 3000, 7, figures, LEMIDROSY_FIGURES);
    printf("deliveries %u, forced %u, most kept %u\n", (unsigned)figures[0], (unsigned)figures[1], (unsigned)figures[2]);
    return 0;
}
