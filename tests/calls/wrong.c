// Libraries that are wrong in one place, for the test of the suite (tests/suites/run): a call of the right library, whose name then begins with right_, and one thing
// more. WAY says which, and it happens to every twentieth call. Each is one that a single comparison of the suite sees.
#include <stdbool.h>
#include <stddef.h>
#include <stdint.h>

// Whether this call is wrong.
static bool now(void) {
    static unsigned calls;
    return ++calls % 20 == 0;
}

#if WAY == 1 // the answer has one deletion more
uint64_t right_checkpoint(uint16_t *, size_t, size_t, uint16_t *, size_t);
uint64_t lemidrosy_checkpoint(uint16_t *words, size_t size, size_t process, uint16_t *deleted, size_t room) {
    return right_checkpoint(words, size, process, deleted, room) + (now() ? 256 : 0);
}
#elif WAY == 2 // a set of entries that rose has one more
uint64_t right_deliver(uint16_t *, size_t, uint32_t, uint16_t *, size_t);
uint64_t lemidrosy_deliver(uint16_t *words, size_t size, uint32_t message, uint16_t *deleted, size_t room) {
    return right_deliver(words, size, message, deleted, room) | (now() ? (uint64_t)1 << 63 : 0);
}
#elif WAY == 3 // a call changes a word, refused or not
uint64_t right_lose(uint16_t *, size_t, uint32_t);
uint64_t lemidrosy_lose(uint16_t *words, size_t size, uint32_t message) {
    uint64_t answer = right_lose(words, size, message);
    if (now() && size > 33)
        words[33] ^= 1;
    return answer;
}
#elif WAY == 4 // something is left in an unused place
uint64_t right_send(uint16_t *, size_t, size_t, size_t);
uint64_t lemidrosy_send(uint16_t *words, size_t size, size_t sender, size_t receiver) {
    uint64_t answer = right_send(words, size, sender, receiver);
    if (now() && (answer & 255) == 0)
        words[14] = 1;
    return answer;
}
#elif WAY == 5 // the entry after what is written of a list changes
uint64_t right_line(const uint16_t *, size_t, uint32_t, uint16_t *, size_t);
uint64_t lemidrosy_line(const uint16_t *words, size_t size, uint32_t failed, uint16_t *line, size_t room) {
    uint64_t answer = right_line(words, size, failed, line, room);
    if (room > 0 && (answer & 255) != 0)
        line[room - 1] ^= 1;
    return answer;
}
#elif WAY == 6 // the byte after a list is written
uint64_t right_recover(uint16_t *, size_t, uint32_t, uint16_t *, size_t, uint16_t *, size_t);
uint64_t lemidrosy_recover(uint16_t *words, size_t size, uint32_t failed, uint16_t *deleted, size_t many, uint16_t *line, size_t room) {
    uint64_t answer = right_recover(words, size, failed, deleted, many, line, room);
    if (now() && room > 0)
        line[room] = 0;
    return answer;
}
#elif WAY == 7 // the word after the last one is read
bool right_is_sound(const uint16_t *, size_t);
bool lemidrosy_is_sound(const uint16_t *words, size_t size) {
    if (now() && size > 0)
        (void)*(const volatile uint16_t *)&words[size];
    return right_is_sound(words, size);
}
#elif WAY == 8 // every state is sound
bool lemidrosy_is_sound(const uint16_t *words, size_t size) {
    (void)words;
    (void)size;
    return true;
}
#elif WAY == 9 // the first of no block counts is read
uint64_t right_start(uint16_t *, size_t, size_t, const uint32_t *, size_t);
uint64_t lemidrosy_start(uint16_t *words, size_t size, size_t n, const uint32_t *counts, size_t room) {
    (void)*(const volatile uint32_t *)counts;
    return right_start(words, size, n, counts, room);
}
#elif WAY == 10 // a refused start leaves the words as they were
uint64_t right_start(uint16_t *, size_t, size_t, const uint32_t *, size_t);
uint64_t lemidrosy_start(uint16_t *words, size_t size, size_t n, const uint32_t *counts, size_t room) {
    if (n == 0 || n > 16)
        return 1;
    return right_start(words, size, n, counts, room);
}
#elif WAY == 11 // a process is judged by its lowest 32 bits
uint64_t right_checkpoint(uint16_t *, size_t, size_t, uint16_t *, size_t);
uint64_t lemidrosy_checkpoint(uint16_t *words, size_t size, size_t process, uint16_t *deleted, size_t room) {
    return right_checkpoint(words, size, (uint32_t)process, deleted, room);
}
#elif WAY == 12 // a failed set is judged by its lowest 16 bits
uint64_t right_line(const uint16_t *, size_t, uint32_t, uint16_t *, size_t);
uint64_t lemidrosy_line(const uint16_t *words, size_t size, uint32_t failed, uint16_t *line, size_t room) {
    return right_line(words, size, (uint16_t)failed, line, room);
}
#elif WAY == 13 // the cause of the last checkpoint that is read is another
uint64_t right_kept(const uint16_t *, size_t, size_t, uint32_t *, size_t);
uint64_t lemidrosy_kept(const uint16_t *words, size_t size, size_t process, uint32_t *kept, size_t room) {
    uint64_t answer = right_kept(words, size, process, kept, room);
    if ((answer & 255) == 0)
        kept[3 * (answer >> 24 & 0xffffff) - 2] ^= 3;
    return answer;
}
#elif WAY == 14 // one message fewer would be lost
uint64_t right_lost(const uint16_t *, size_t, uint32_t, uint32_t *, size_t);
uint64_t lemidrosy_lost(const uint16_t *words, size_t size, uint32_t failed, uint32_t *messages, size_t room) {
    uint64_t answer = right_lost(words, size, failed, messages, room);
    return answer >> 24 != 0 ? answer - ((uint64_t)1 << 24) : answer;
}
#elif WAY == 15 // an entry of a carried vector is that of the next process
uint64_t right_carried(const uint16_t *, size_t, uint32_t, uint16_t *, size_t);
uint64_t lemidrosy_carried(const uint16_t *words, size_t size, uint32_t message, uint16_t *vector, size_t room) {
    uint64_t answer = right_carried(words, size, message, vector, room);
    if (answer == 0 && room > 1)
        vector[0] = vector[1];
    return answer;
}
#elif WAY == 16 // the ends of a pair of states that breaks are exchanged
uint64_t right_judge(const uint8_t *, size_t);
uint64_t lemidrosy_judge(const uint8_t *trace, size_t size) {
    uint64_t answer = right_judge(trace, size);
    return (answer & 0xffff) | (answer >> 40) << 16 | (answer >> 16) << 40;
}
#elif WAY == 17 // the byte after the merged trace is written
uint64_t right_merge(const uint8_t *, size_t, const uint8_t *, size_t, uint32_t, uint8_t *, size_t);
uint64_t lemidrosy_merge(const uint8_t *first, size_t one, const uint8_t *second, size_t other, uint32_t set, uint8_t *trace, size_t room) {
    uint64_t answer = right_merge(first, one, second, other, set, trace, room);
    if ((answer & 255) == 0)
        trace[answer >> 24] ^= 1;
    return answer;
}
#elif WAY == 18 // the figures of a simulation that is refused are zero
uint64_t right_simulate(size_t, uint32_t, uint32_t, uint32_t, uint64_t *, size_t);
uint64_t lemidrosy_simulate(size_t n, uint32_t spacing, uint32_t steps, uint32_t seed, uint64_t *figures, size_t room) {
    uint64_t answer = right_simulate(n, spacing, steps, seed, figures, room);
    if (answer == 22)
        figures[0] = 0;
    return answer;
}
#elif WAY == 19 // the record of a send names the wrong receiver
uint64_t right_record_send(uint16_t *, size_t, size_t, size_t, uint8_t *, size_t, uint64_t *, size_t);
uint64_t lemidrosy_record_send(uint16_t *words, size_t size, size_t sender, size_t receiver, uint8_t *buffer, size_t bytes, uint64_t *place, size_t places) {
    uint64_t answer = right_record_send(words, size, sender, receiver, buffer, bytes, place, places);
    if (now() && (answer & 255) == 0)
        buffer[*place - 1] ^= 1;
    return answer;
}
#elif WAY == 20 // 21 is said before the number of the call itself
uint64_t right_record_deliver(uint16_t *, size_t, uint32_t, uint16_t *, size_t, uint8_t *, size_t, uint64_t *, size_t);
uint64_t lemidrosy_record_deliver(uint16_t *words, size_t size, uint32_t message, uint16_t *deleted, size_t room, uint8_t *buffer, size_t bytes, uint64_t *place, size_t places) {
    if (places > 0 && bytes < 4)
        return 21;
    return right_record_deliver(words, size, message, deleted, room, buffer, bytes, place, places);
}
#elif WAY == 21 // the place moves though the call is refused with 21
uint64_t right_record_recover(uint16_t *, size_t, uint32_t, uint16_t *, size_t, uint16_t *, size_t, uint8_t *, size_t, uint64_t *, size_t);
uint64_t lemidrosy_record_recover(uint16_t *words, size_t size, uint32_t failed, uint16_t *deleted, size_t many, uint16_t *line, size_t room, uint8_t *buffer, size_t bytes, uint64_t *place, size_t places) {
    uint64_t answer = right_record_recover(words, size, failed, deleted, many, line, room, buffer, bytes, place, places);
    if (answer == 21)
        *place += 4;
    return answer;
}
#elif WAY == 22 // an owner is shown everybody's members of a line
uint64_t right_console_line(uint32_t, uint32_t, const uint16_t *, size_t, uint32_t, uint16_t *, size_t);
uint64_t lemidrosy_console_line(uint32_t role, uint32_t owned, const uint16_t *words, size_t size, uint32_t failed, uint16_t *line, size_t room) {
    return right_console_line(role == 1 ? 0 : role, owned, words, size, failed, line, room);
}
#elif WAY == 23 // a role is judged by its lowest 8 bits
uint64_t right_console_counts(uint32_t, uint32_t, const uint16_t *, size_t, uint16_t *, size_t);
uint64_t lemidrosy_console_counts(uint32_t role, uint32_t owned, const uint16_t *words, size_t size, uint16_t *counts, size_t room) {
    return right_console_counts((uint8_t)role, owned, words, size, counts, room);
}
#elif WAY == 24 // a start that is denied makes the words zero
uint64_t right_console_start(uint32_t, uint32_t, uint16_t *, size_t, size_t, const uint32_t *, size_t);
uint64_t lemidrosy_console_start(uint32_t role, uint32_t owned, uint16_t *words, size_t size, size_t n, const uint32_t *counts, size_t room) {
    uint64_t answer = right_console_start(role, owned, words, size, n, counts, room);
    for (size_t k = 0; answer == 25 && k < size; k++)
        words[k] = 0;
    return answer;
}
#elif WAY == 25 // to an owner there is never a message 0, though the state is not sound and says so
uint64_t right_console_lose(uint32_t, uint32_t, uint16_t *, size_t, uint32_t);
uint64_t lemidrosy_console_lose(uint32_t role, uint32_t owned, uint16_t *words, size_t size, uint32_t message) {
    return role == 1 && message == 0 ? 25 : right_console_lose(role, owned, words, size, message);
}
#else
#error "no such way to be wrong"
#endif
