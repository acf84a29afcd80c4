/* show < TRACE: the vector, the pins and the kept checkpoints of each process after the calls of a trace, and the line for every failed set. */
#include "lemidrosy.h"
#include <stdio.h>

static uint16_t words[LEMIDROSY_WORDS], deleted[LEMIDROSY_DELETIONS], line[LEMIDROSY_PROCESSES];

static uint64_t make_call(uint32_t record) {
    uint32_t process = record >> 25 & 15, argument = record & 0x1ffffff;
    switch (record >> 29) {
    case 0: return lemidrosy_checkpoint(words, LEMIDROSY_WORDS, process, deleted, LEMIDROSY_DELETIONS);
    case 1: return lemidrosy_send(words, LEMIDROSY_WORDS, process, argument);
    case 2: return lemidrosy_deliver(words, LEMIDROSY_WORDS, argument, deleted, LEMIDROSY_DELETIONS);
    case 3: return lemidrosy_lose(words, LEMIDROSY_WORDS, argument);
    case 4: return lemidrosy_recover(words, LEMIDROSY_WORDS, argument, deleted, LEMIDROSY_DELETIONS, line, LEMIDROSY_PROCESSES);
    default: return LEMIDROSY_MALFORMED_RECORD;
    }
}

static void show_process(unsigned n, unsigned p) {
    uint16_t vector[LEMIDROSY_PROCESSES], pins[LEMIDROSY_PROCESSES];
    uint32_t kept[3 * LEMIDROSY_PROCESSES];
    lemidrosy_vector(words, LEMIDROSY_WORDS, p, vector, LEMIDROSY_PROCESSES);
    lemidrosy_pins(words, LEMIDROSY_WORDS, p, pins, LEMIDROSY_PROCESSES);
    uint64_t keeps = lemidrosy_kept(words, LEMIDROSY_WORDS, p, kept, 3 * LEMIDROSY_PROCESSES);
    printf("process %u: vector", p);
    for (unsigned f = 0; f < n; f++)
        printf(" %u", vector[f]);
    printf("; pins");
    for (unsigned f = 0; f < n; f++)
        pins[f] == 0 ? printf(" -") : printf(" %u", pins[f] - 1);
    printf("; keeps");
    for (unsigned k = 0; k < lemidrosy_value(keeps); k++)
        printf(" %u", kept[3 * k]);
    printf("\n");
}

static void show_line(unsigned n, unsigned failed) {
    lemidrosy_line(words, LEMIDROSY_WORDS, failed, line, LEMIDROSY_PROCESSES);
    const char *before = "if ";
    for (unsigned p = 0; p < n; p++)
        if (failed >> p & 1) {
            printf("%s%u", before, p);
            before = " and ";
        }
    printf((failed & (failed - 1)) == 0 ? " fails: line" : " fail: line");
    for (unsigned p = 0; p < n; p++)
        printf(" %u", line[p]);
    printf("\n");
}

int main(void) {
    uint32_t counts[LEMIDROSY_PROCESSES];
    unsigned char bytes[4];
    unsigned n = (unsigned)getchar(), record = 1;
    for (unsigned p = 0; p < LEMIDROSY_PROCESSES; p++)
        counts[p] = 1;
    if (lemidrosy_refused(lemidrosy_start(words, LEMIDROSY_WORDS, n, counts, LEMIDROSY_PROCESSES)) != 0)
        return 1;
    for (; fread(bytes, 4, 1, stdin) == 1; record++) {
        unsigned refused = lemidrosy_refused(make_call((uint32_t)bytes[0] << 24 | bytes[1] << 16 | bytes[2] << 8 | bytes[3]));
        if (refused != 0)
            printf("record %u is refused with %u\n", record, refused);
    }
    for (unsigned p = 0; p < n; p++)
        show_process(n, p);
    for (unsigned failed = 1; failed < 1u << n; failed++)
        show_line(n, failed);
    return 0;
}
