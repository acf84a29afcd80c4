// Replays blocks of records from C, on buffers between pages that nobody may touch. What must come of it, the oracle says (held.rs), which has every second call made
// here.
//
//     driver COUNT SEED
//
// Built with the address and undefined-behaviour sanitizers. The status is 0 if COUNT calls were made and each did what the oracle says.
#define _GNU_SOURCE
#include "../guarded.h"
#include "lemidrosy.h"

// As in held.rs: Lent.
struct block {
    uint16_t *words;
    size_t words_len;
    bool all;
    uint64_t done;
    const uint8_t *records;
    size_t records_len;
    uint8_t *text;
    size_t text_len;
    uint64_t *progress;
    size_t progress_len;
};

bool hold_blocks(uint64_t seed, uint64_t count);

// How many pages each buffer has: for the words, the records, the text and the progress.
static const size_t pages[] = {10, 10, 10, 10};

uint64_t replay_from_c(const struct block *b) {
    return lemidrosy_replay(b->words, b->words_len, b->all, b->done, b->records, b->records_len, b->text, b->text_len, b->progress, b->progress_len);
}

int main(int count, char **words) {
    if (count != 3) {
        fprintf(stderr, "usage: driver COUNT SEED\n");
        return 2;
    }
    make_buffers(pages, sizeof pages / sizeof pages[0]);
    watch();
    return hold_blocks(strtoull(words[2], NULL, 10), strtoull(words[1], NULL, 10)) ? 0 : 1;
}
