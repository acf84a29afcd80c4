/* The records of a trace, made into calls again. */
#include "reservoir.h"

uint64_t trace_apply(uint16_t *words, const uint8_t *record, uint16_t *deleted, uint16_t *line) {
    uint32_t number = (uint32_t)record[0] << 24 | (uint32_t)record[1] << 16 | (uint32_t)record[2] << 8 | record[3];
    uint32_t process = number >> 25 & 15, argument = number & 0x1ffffff;
    switch (number >> 29) {
    case 0: return lemidrosy_checkpoint(words, LEMIDROSY_WORDS, process, deleted, LEMIDROSY_DELETIONS);
    case 1: return lemidrosy_send(words, LEMIDROSY_WORDS, process, argument);
    case 2: return lemidrosy_deliver(words, LEMIDROSY_WORDS, argument, deleted, LEMIDROSY_DELETIONS);
    case 3: return lemidrosy_lose(words, LEMIDROSY_WORDS, argument);
    case 4: return lemidrosy_recover(words, LEMIDROSY_WORDS, argument, deleted, LEMIDROSY_DELETIONS, line, LEMIDROSY_PROCESSES);
    default: return LEMIDROSY_MALFORMED_RECORD;
    }
}
