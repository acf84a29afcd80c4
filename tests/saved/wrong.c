// Libraries that are wrong in one place, for the test of the suite (tests/suites/run): a call of the right library, whose name then begins with right_, and one thing
// more. WAY says which. Each is one that a single comparison of the suite sees.
#include <stddef.h>
#include <stdint.h>

enum { SAVED = 12942 };

#if WAY == 1 // a byte of a word is another
uint64_t right_save(const uint16_t *, size_t, uint8_t *, size_t);
uint64_t lemidrosy_save(const uint16_t *words, size_t size, uint8_t *bytes, size_t room) {
    uint64_t answer = right_save(words, size, bytes, room);
    if ((answer & 255) == 0)
        bytes[6000] ^= 1;
    return answer;
}
#elif WAY == 2 // the answer does not say how many bytes there are
uint64_t right_save(const uint16_t *, size_t, uint8_t *, size_t);
uint64_t lemidrosy_save(const uint16_t *words, size_t size, uint8_t *bytes, size_t room) {
    return right_save(words, size, bytes, room) & 255;
}
#elif WAY == 3 // too few bytes are written all the same
uint64_t right_save(const uint16_t *, size_t, uint8_t *, size_t);
uint64_t lemidrosy_save(const uint16_t *words, size_t size, uint8_t *bytes, size_t room) {
    uint64_t answer = right_save(words, size, bytes, room);
    if ((answer & 255) == 3 && room > 0)
        bytes[0] ^= 1;
    return answer;
}
#elif WAY == 4 // the byte after the saved ones is written
uint64_t right_save(const uint16_t *, size_t, uint8_t *, size_t);
uint64_t lemidrosy_save(const uint16_t *words, size_t size, uint8_t *bytes, size_t room) {
    uint64_t answer = right_save(words, size, bytes, room);
    if ((answer & 255) == 0)
        bytes[SAVED] ^= 1;
    return answer;
}
#elif WAY == 5 // what follows a saved state is not looked at
uint64_t right_load(const uint8_t *, size_t, uint16_t *, size_t);
uint64_t lemidrosy_load(const uint8_t *bytes, size_t many, uint16_t *words, size_t size) {
    return right_load(bytes, many > SAVED ? SAVED : many, words, size);
}
#elif WAY == 6 // a load that is refused writes a word
uint64_t right_load(const uint8_t *, size_t, uint16_t *, size_t);
uint64_t lemidrosy_load(const uint8_t *bytes, size_t many, uint16_t *words, size_t size) {
    uint64_t answer = right_load(bytes, many, words, size);
    if (answer != 0 && size > 0)
        words[size - 1] ^= 1;
    return answer;
}
#elif WAY == 7 // a word is another after a load
uint64_t right_load(const uint8_t *, size_t, uint16_t *, size_t);
uint64_t lemidrosy_load(const uint8_t *bytes, size_t many, uint16_t *words, size_t size) {
    uint64_t answer = right_load(bytes, many, words, size);
    if (answer == 0)
        words[15] ^= 1;
    return answer;
}
#elif WAY == 8 // the byte after the lent ones is read
uint64_t right_load(const uint8_t *, size_t, uint16_t *, size_t);
uint64_t lemidrosy_load(const uint8_t *bytes, size_t many, uint16_t *words, size_t size) {
    if (many > 0)
        (void)*(const volatile uint8_t *)&bytes[many];
    return right_load(bytes, many, words, size);
}
#elif WAY == 9 // the version is not looked at
uint64_t right_load(const uint8_t *, size_t, uint16_t *, size_t);
uint64_t lemidrosy_load(const uint8_t *bytes, size_t many, uint16_t *words, size_t size) {
    uint64_t answer = right_load(bytes, many, words, size);
    return answer != 0 && many == SAVED && size == 6464 && (bytes[8] != 1 || bytes[9] != 0) ? 0 : answer;
}
#else
#error "no such way to be wrong"
#endif
