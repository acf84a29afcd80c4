// Saves and loads from C, on buffers between pages that nobody may touch. What must come of it, the oracle says (held.rs), which has every second call made here.
//
//     driver COUNT SEED
//
// Built with the address and undefined-behaviour sanitizers. The status is 0 if COUNT calls were made and each did what the oracle says.
#define _GNU_SOURCE
#include "../guarded.h"
#include "lemidrosy.h"

bool hold_saved(uint64_t seed, uint64_t count);

// How many pages each buffer has: for the words and for the bytes.
static const size_t pages[] = {8, 8};

uint64_t save_from_c(const uint16_t *words, size_t words_length, uint8_t *bytes, size_t bytes_length) {
    return lemidrosy_save(words, words_length, bytes, bytes_length);
}

uint64_t load_from_c(const uint8_t *bytes, size_t bytes_length, uint16_t *words, size_t words_length) {
    return lemidrosy_load(bytes, bytes_length, words, words_length);
}

int main(int count, char **words) {
    if (count != 3) {
        fprintf(stderr, "usage: driver COUNT SEED\n");
        return 2;
    }
    make_buffers(pages, sizeof pages / sizeof pages[0]);
    watch();
    return hold_saved(strtoull(words[2], NULL, 10), strtoull(words[1], NULL, 10)) ? 0 : 1;
}
