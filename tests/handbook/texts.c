/* The refusals in words, a line a number. */
#include "lemidrosy.h"
#include <stdio.h>

int main(void) {
    for (unsigned number = 1; number <= LEMIDROSY_DENIED; number++)
        if (number != 6)
            printf("%u %s\n", number, lemidrosy_refusal_text(number));
    return 0;
}
