/* replayed < TRACE: the lines of a trace, made by blocks of records. */
#include "lemidrosy.h"
#include <stdio.h>

enum { RECORDS = 1024 };

static uint16_t words[LEMIDROSY_WORDS];
static uint8_t records[4 * RECORDS], text[16 * LEMIDROSY_LINE];

int main(void) {
    uint32_t counts[LEMIDROSY_PROCESSES];
    uint64_t progress[LEMIDROSY_PROGRESS] = {1, 0, 1}, done = 0;
    for (unsigned p = 0; p < LEMIDROSY_PROCESSES; p++)
        counts[p] = 1;
    if (lemidrosy_refused(lemidrosy_start(words, LEMIDROSY_WORDS, (size_t)getchar(), counts, LEMIDROSY_PROCESSES)) != 0)
        return 1;
    for (size_t held; (held = fread(records, 4, RECORDS, stdin)) > 0;)
        for (size_t at = 0; at < held && progress[0] > 0 && progress[2] == 1; at += progress[0], done += progress[0]) {
            lemidrosy_replay(words, LEMIDROSY_WORDS, false, done, records + 4 * at, 4 * (held - at), text, sizeof text, progress, LEMIDROSY_PROGRESS);
            fwrite(text, 1, progress[1], stdout);
        }
    return 0;
}
