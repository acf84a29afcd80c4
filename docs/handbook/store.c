/* store [WORD]: stores a state if it is started with a word, and loads it. */
#include "lemidrosy.h"
#include <stdio.h>

static uint16_t words[LEMIDROSY_WORDS];

int main(int count, char **arguments) {
    uint32_t blocks[2] = {1, 1};
    uint64_t numbers[LEMIDROSY_NUMBERS];
    (void)arguments;
    if (count > 1) {
        lemidrosy_start(words, LEMIDROSY_WORDS, 2, blocks, 2);
        lemidrosy_send(words, LEMIDROSY_WORDS, 0, 1);
        printf("stored: %d\n", lemidrosy_store_file("state", words));
    }
    int loaded = lemidrosy_load_file("state", words);
    printf("loaded: %d", loaded);
    if (loaded == 0 && lemidrosy_refused(lemidrosy_numbers(words, LEMIDROSY_WORDS, numbers, LEMIDROSY_NUMBERS)) == 0)
        printf(", processes %u, messages under way %u", (unsigned)numbers[0], (unsigned)numbers[2]);
    printf("\n");
    return 0;
}
