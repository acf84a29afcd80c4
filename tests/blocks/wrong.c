// Libraries that are wrong in one place, for the test of the suite (tests/suites/run): a call of the right library, whose name then begins with right_, and one thing
// more. WAY says which. Each is one that a single comparison of the suite sees.
#include <stdbool.h>
#include <stddef.h>
#include <stdint.h>

uint64_t right_replay(uint16_t *, size_t, bool, uint64_t, const uint8_t *, size_t, uint8_t *, size_t, uint64_t *, size_t);

#if WAY == 1 // a record that is not there yet is taken to be counted
uint64_t lemidrosy_replay(uint16_t *words, size_t size, bool all, uint64_t done, const uint8_t *records, size_t many, uint8_t *text, size_t room, uint64_t *progress, size_t numbers) {
    uint64_t answer = right_replay(words, size, all, done, records, many, text, room, progress, numbers);
    if (answer == 0 && many % 4 == 3)
        progress[0]++;
    return answer;
}
#elif WAY == 2 // it goes on after a refusal
uint64_t lemidrosy_replay(uint16_t *words, size_t size, bool all, uint64_t done, const uint8_t *records, size_t many, uint8_t *text, size_t room, uint64_t *progress, size_t numbers) {
    (void)all;
    return right_replay(words, size, true, done, records, many, text, room, progress, numbers);
}
#elif WAY == 3 // a byte of the text after the lines is written
uint64_t lemidrosy_replay(uint16_t *words, size_t size, bool all, uint64_t done, const uint8_t *records, size_t many, uint8_t *text, size_t room, uint64_t *progress, size_t numbers) {
    uint64_t answer = right_replay(words, size, all, done, records, many, text, room, progress, numbers);
    if (answer == 0 && progress[1] < room)
        text[progress[1]] ^= 1;
    return answer;
}
#elif WAY == 4 // one record less is taken where the text has room for a single line
uint64_t lemidrosy_replay(uint16_t *words, size_t size, bool all, uint64_t done, const uint8_t *records, size_t many, uint8_t *text, size_t room, uint64_t *progress, size_t numbers) {
    return right_replay(words, size, all, done, records, many, text, room == 3102 ? 3101 : room, progress, numbers);
}
#elif WAY == 5 // the records are numbered from 1 in each block
uint64_t lemidrosy_replay(uint16_t *words, size_t size, bool all, uint64_t done, const uint8_t *records, size_t many, uint8_t *text, size_t room, uint64_t *progress, size_t numbers) {
    return right_replay(words, size, all, done < 1000000000 ? 0 : done, records, many, text, room, progress, numbers);
}
#elif WAY == 6 // of words of another number one is changed
uint64_t lemidrosy_replay(uint16_t *words, size_t size, bool all, uint64_t done, const uint8_t *records, size_t many, uint8_t *text, size_t room, uint64_t *progress, size_t numbers) {
    uint64_t answer = right_replay(words, size, all, done, records, many, text, room, progress, numbers);
    if (answer == 0 && size > 0 && size != 6464)
        words[0] ^= 1;
    return answer;
}
#elif WAY == 7 // a list that is too short is written all the same
uint64_t lemidrosy_replay(uint16_t *words, size_t size, bool all, uint64_t done, const uint8_t *records, size_t many, uint8_t *text, size_t room, uint64_t *progress, size_t numbers) {
    uint64_t answer = right_replay(words, size, all, done, records, many, text, room, progress, numbers);
    if (answer == 3 && numbers > 0)
        progress[0] ^= 1;
    return answer;
}
#endif
