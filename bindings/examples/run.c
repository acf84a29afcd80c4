/* A run of three processes: process 0 sends to process 1, which takes the message in, and then fails. */
#include "lemidrosy.h"
#include <stdio.h>

static uint16_t words[LEMIDROSY_WORDS];

int main(void) {
    uint32_t blocks[3] = {1, 1, 1};
    uint16_t deleted[LEMIDROSY_DELETIONS], line[3];
    lemidrosy_start(words, LEMIDROSY_WORDS, 3, blocks, 3);
    uint64_t sent = lemidrosy_send(words, LEMIDROSY_WORDS, 0, 1);
    lemidrosy_deliver(words, LEMIDROSY_WORDS, lemidrosy_value(sent), deleted, LEMIDROSY_DELETIONS);
    struct lemidrosy_answer back =
        lemidrosy_answer(lemidrosy_recover(words, LEMIDROSY_WORDS, 1 << 0, deleted, LEMIDROSY_DELETIONS, line, 3));
    if (back.refused != 0)
        return fprintf(stderr, "%s\n", lemidrosy_refusal_text(back.refused)), 1;
    printf("%u rolled back, line %u %u %u\n", back.value, line[0], line[1], line[2]);
    return 0;
}
