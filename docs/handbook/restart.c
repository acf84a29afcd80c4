/* restart: process 0 of two fails; then the run is swept. */
#include "lemidrosy.h"
#include <stdio.h>

static uint16_t words[LEMIDROSY_WORDS], deleted[LEMIDROSY_DELETIONS];

static void recover(uint32_t failed) {
    uint16_t line[2], vector[2];
    uint32_t messages[LEMIDROSY_THREES];
    uint64_t lost = lemidrosy_lost(words, LEMIDROSY_WORDS, failed, messages, LEMIDROSY_THREES);
    for (uint32_t k = 0; k < lemidrosy_value(lost); k++)
        printf("message %u from %u to %u will be lost\n", messages[3 * k], messages[3 * k + 1], messages[3 * k + 2]);
    lemidrosy_line(words, LEMIDROSY_WORDS, failed, line, 2);
    for (uint32_t p = 0; p < 2; p++) {
        lemidrosy_vector(words, LEMIDROSY_WORDS, p, vector, 2);
        if (line[p] < vector[p])
            printf("process %u loads checkpoint %u\n", p, line[p]);
        else
            printf("process %u goes on\n", p);
    }
    uint64_t answer = lemidrosy_recover(words, LEMIDROSY_WORDS, failed, deleted, LEMIDROSY_DELETIONS, line, 2);
    printf("went back: %u\n", lemidrosy_value(answer));
    for (unsigned k = 0; k < lemidrosy_deletions(answer); k++)
        printf("delete %u:%u\n", deleted[2 * k], deleted[2 * k + 1]);
}

int main(void) {
    uint32_t blocks[2] = {1, 1};
    lemidrosy_start(words, LEMIDROSY_WORDS, 2, blocks, 2);
    lemidrosy_send(words, LEMIDROSY_WORDS, 0, 1);
    lemidrosy_checkpoint(words, LEMIDROSY_WORDS, 0, deleted, LEMIDROSY_DELETIONS);
    lemidrosy_send(words, LEMIDROSY_WORDS, 0, 1);
    printf("-- process 0 has failed\n");
    recover(1 << 0);
    for (uint32_t message = 1; message <= 2; message++)
        printf("message %u arrives: %u\n", message, lemidrosy_refused(lemidrosy_deliver(words, LEMIDROSY_WORDS, message, deleted, LEMIDROSY_DELETIONS)));
    lemidrosy_checkpoint(words, LEMIDROSY_WORDS, 1, deleted, LEMIDROSY_DELETIONS);
    printf("-- a sweep\n");
    recover(0);
    return 0;
}
