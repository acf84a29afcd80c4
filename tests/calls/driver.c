// Calls the library from C, on buffers between pages that nobody may touch. What is called and what must come of it, the oracle says (held.rs): it asks for
// the buffers, and has every second call made here.
//
//     driver COUNT SEED
//     driver programs COUNT SEED
//     driver recorded COUNT SEED
//     driver console COUNT SEED
//
// The second is for what works on no state (programs.rs): COUNT calls of each. The third makes the calls through the recorder (recorded.rs), the fourth through the console
// (console.rs). Built with the address and undefined-behaviour sanitizers. The status is 0 if COUNT calls were made and each did what the oracle says.
#define _GNU_SOURCE
#include "../guarded.h"
#include "lemidrosy.h"

// As in held.rs: Lent.
struct call {
    uint32_t which;
    uint64_t first, second;
    uint16_t *words;
    size_t words_len;
    uint16_t *deletions;
    size_t deletions_len;
    uint16_t *line;
    size_t line_len;
    uint32_t *numbers;
    size_t numbers_len;
    uint64_t *sums;
    size_t sums_len;
};

bool hold_calls(uint64_t seed, uint64_t count);
bool hold_programs(uint64_t seed, uint64_t count);
bool hold_recorded(uint64_t seed, uint64_t count);
bool hold_console(uint64_t seed, uint64_t count);

// How many pages each buffer has: the first is for words, also for twice as many as a state has, the last three are for bytes.
static const size_t pages[] = {8, 1, 1, 1, 1, 64, 64, 64};

uint64_t call_from_c(const struct call *c) {
    switch (c->which) {
#ifndef ABSENT_start
    case 0: return lemidrosy_start(c->words, c->words_len, c->first, c->numbers, c->numbers_len);
#endif
#ifndef ABSENT_checkpoint
    case 1: return lemidrosy_checkpoint(c->words, c->words_len, c->first, c->deletions, c->deletions_len);
#endif
#ifndef ABSENT_send
    case 2: return lemidrosy_send(c->words, c->words_len, c->first, c->second);
#endif
#ifndef ABSENT_deliver
    case 3: return lemidrosy_deliver(c->words, c->words_len, (uint32_t)c->first, c->deletions, c->deletions_len);
#endif
#ifndef ABSENT_lose
    case 4: return lemidrosy_lose(c->words, c->words_len, (uint32_t)c->first);
#endif
#ifndef ABSENT_line
    case 5: return lemidrosy_line(c->words, c->words_len, (uint32_t)c->first, c->line, c->line_len);
#endif
#ifndef ABSENT_recover
    case 6: return lemidrosy_recover(c->words, c->words_len, (uint32_t)c->first, c->deletions, c->deletions_len, c->line, c->line_len);
#endif
#ifndef ABSENT_earliest
    case 7: return lemidrosy_earliest(c->words, c->words_len, c->numbers, c->numbers_len, c->line, c->line_len);
#endif
#ifndef ABSENT_is_sound
    case 8: return lemidrosy_is_sound(c->words, c->words_len);
#endif
#ifndef ABSENT_numbers
    case 9: return lemidrosy_numbers(c->words, c->words_len, c->sums, c->sums_len);
#endif
#ifndef ABSENT_vector
    case 10: return lemidrosy_vector(c->words, c->words_len, c->first, c->line, c->line_len);
#endif
#ifndef ABSENT_pins
    case 11: return lemidrosy_pins(c->words, c->words_len, c->first, c->line, c->line_len);
#endif
#ifndef ABSENT_kept
    case 12: return lemidrosy_kept(c->words, c->words_len, c->first, c->numbers, c->numbers_len);
#endif
#ifndef ABSENT_messages
    case 13: return lemidrosy_messages(c->words, c->words_len, c->numbers, c->numbers_len);
#endif
#ifndef ABSENT_lost
    case 14: return lemidrosy_lost(c->words, c->words_len, (uint32_t)c->first, c->numbers, c->numbers_len);
#endif
#ifndef ABSENT_carried
    case 15: return lemidrosy_carried(c->words, c->words_len, (uint32_t)c->first, c->line, c->line_len);
#endif
    default: fprintf(stderr, "driver: no such call\n"); exit(1);
    }
}

uint64_t record_from_c(const struct call *c, uint8_t *buffer, size_t size, uint64_t *place, size_t places) {
    switch (c->which) {
    case 0: return lemidrosy_record_start(c->words, c->words_len, c->first, c->numbers, c->numbers_len, buffer, size, place, places);
    case 1: return lemidrosy_record_checkpoint(c->words, c->words_len, c->first, c->deletions, c->deletions_len, buffer, size, place, places);
    case 2: return lemidrosy_record_send(c->words, c->words_len, c->first, c->second, buffer, size, place, places);
    case 3: return lemidrosy_record_deliver(c->words, c->words_len, (uint32_t)c->first, c->deletions, c->deletions_len, buffer, size, place, places);
    case 4: return lemidrosy_record_lose(c->words, c->words_len, (uint32_t)c->first, buffer, size, place, places);
    case 5: return lemidrosy_record_line(c->words, c->words_len, (uint32_t)c->first, c->line, c->line_len, buffer, size, place, places);
    case 6: return lemidrosy_record_recover(c->words, c->words_len, (uint32_t)c->first, c->deletions, c->deletions_len, c->line, c->line_len, buffer, size, place, places);
    case 7: return lemidrosy_record_earliest(c->words, c->words_len, c->numbers, c->numbers_len, c->line, c->line_len, buffer, size, place, places);
    default: fprintf(stderr, "driver: no such call\n"); exit(1);
    }
}

uint64_t console_from_c(const struct call *c, uint32_t role, uint32_t owned) {
    switch (c->which) {
    case 0: return lemidrosy_console_start(role, owned, c->words, c->words_len, c->first, c->numbers, c->numbers_len);
    case 1: return lemidrosy_console_checkpoint(role, owned, c->words, c->words_len, c->first, c->deletions, c->deletions_len);
    case 2: return lemidrosy_console_send(role, owned, c->words, c->words_len, c->first, c->second);
    case 3: return lemidrosy_console_deliver(role, owned, c->words, c->words_len, (uint32_t)c->first, c->deletions, c->deletions_len);
    case 4: return lemidrosy_console_lose(role, owned, c->words, c->words_len, (uint32_t)c->first);
    case 5: return lemidrosy_console_line(role, owned, c->words, c->words_len, (uint32_t)c->first, c->line, c->line_len);
    case 6: return lemidrosy_console_recover(role, owned, c->words, c->words_len, (uint32_t)c->first, c->deletions, c->deletions_len, c->line, c->line_len);
    case 7: return lemidrosy_console_earliest(role, owned, c->words, c->words_len, c->numbers, c->numbers_len, c->line, c->line_len);
    case 8: return lemidrosy_console_list(role, owned, c->words, c->words_len, c->deletions, c->deletions_len);
    case 9: return lemidrosy_console_counts(role, owned, c->words, c->words_len, c->line, c->line_len);
    default: fprintf(stderr, "driver: no such call\n"); exit(1);
    }
}

uint64_t judge_from_c(const uint8_t *trace, size_t length) {
    return lemidrosy_judge(trace, length);
}

uint64_t merge_from_c(const uint8_t *first, size_t first_length, const uint8_t *second, size_t second_length, uint32_t set, uint8_t *trace, size_t trace_length) {
    return lemidrosy_merge(first, first_length, second, second_length, set, trace, trace_length);
}

uint64_t simulate_from_c(size_t n, uint32_t spacing, uint32_t steps, uint32_t seed, uint64_t *figures, size_t length) {
    return lemidrosy_simulate(n, spacing, steps, seed, figures, length);
}

int main(int count, char **words) {
    bool programs = count == 4 && strcmp(words[1], "programs") == 0;
    bool recorded = count == 4 && strcmp(words[1], "recorded") == 0;
    bool console = count == 4 && strcmp(words[1], "console") == 0;
    if (count != 3 && !programs && !recorded && !console) {
        fprintf(stderr, "usage: driver [programs | recorded | console] COUNT SEED\n");
        return 2;
    }
    make_buffers(pages, sizeof pages / sizeof pages[0]);
    watch();
    uint64_t many = strtoull(words[count - 2], NULL, 10);
    uint64_t seed = strtoull(words[count - 1], NULL, 10);
    bool held = programs ? hold_programs(seed, many) : recorded ? hold_recorded(seed, many) : console ? hold_console(seed, many) : hold_calls(seed, many);
    return held ? 0 : 1;
}
