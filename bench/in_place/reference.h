// The calls by hand: in place on a C struct, with intrinsics, as fast as we could write them. The calls in place of the library are timed against these.
// Each call is there twice: the one with `_on` in its name takes the state for sound, the other tests it first, used places only, as the library does.
#ifndef REFERENCE_H
#define REFERENCE_H
#include <stdbool.h>
#include <stddef.h>
#include <stdint.h>

enum { PROCESSES = 16, MESSAGES = 64, MOST_NUMBER = 1000000, LAST_INTERVAL = 65535 };

#define MOST_BLOCKS UINT64_C(1000000000000000)

// A row of 16 words; a pin, and the index of a kept checkpoint, is one above the index, 0 for none.
typedef uint16_t row[PROCESSES];

struct reference {
    row vectors[PROCESSES], pins[PROCESSES], indexes[PROCESSES];
    row stored[PROCESSES][PROCESSES];
    uint8_t causes[PROCESSES][PROCESSES];
    uint16_t blocks[PROCESSES];
    uint8_t marks[PROCESSES], held[PROCESSES];
    // the messages under way, in the first places, ascending by number
    uint32_t numbers[MESSAGES];
    uint8_t senders[MESSAGES], receivers[MESSAGES];
    row carried[MESSAGES];
    uint32_t count, underway, last;
    uint64_t written, deleted;
} __attribute__((aligned(64)));

// An answer: the refusal's number in bits 0 to 7, whether a checkpoint was stored in bit 8, deletions from bit 16, the index or how many rolled back from bit 32, the
// entries that rose from bit 48; of a send the number from bit 8.
typedef uint64_t answer;

answer reference_start(struct reference *s, uint32_t n, const uint32_t *blocks);
answer reference_checkpoint(struct reference *s, uint32_t i, uint16_t *deleted, size_t size);
answer reference_send(struct reference *s, uint32_t i, uint32_t j);
answer reference_deliver(struct reference *s, uint32_t m, uint16_t *deleted, size_t size);
answer reference_lose(struct reference *s, uint32_t m);
answer reference_recover(struct reference *s, uint32_t failed, uint16_t *deleted, size_t size, uint16_t *line, size_t line_size);
answer reference_checkpoint_on(struct reference *s, uint32_t i, uint16_t *deleted, size_t size);
answer reference_send_on(struct reference *s, uint32_t i, uint32_t j);
answer reference_deliver_on(struct reference *s, uint32_t m, uint16_t *deleted, size_t size);
answer reference_lose_on(struct reference *s, uint32_t m);
answer reference_recover_on(struct reference *s, uint32_t failed, uint16_t *deleted, size_t size, uint16_t *line, size_t line_size);
bool reference_is_sound(const struct reference *s);
#endif
