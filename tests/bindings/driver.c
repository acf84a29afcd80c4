/* Makes the calls on standard input through the header for C and prints the answers: README.md has the lines. */
#define _POSIX_C_SOURCE 200809L
#include <stdio.h>
#include <stdlib.h>
#include <string.h>

#include "lemidrosy.h"

/* The words of the state; the word of the line that comes next, null at its end. */
static uint16_t *words;
static size_t size;
static char *next;

static char *take_word(void) {
    char *word = next;
    if (word == NULL)
        exit(2);
    next = strchr(word, ' ');
    if (next != NULL)
        *next++ = 0;
    return word;
}

static uint64_t number(void) { return strtoull(take_word(), NULL, 10); }

static void no_memory(const void *got) {
    if (got == NULL)
        exit(3);
}

/* Words that are zero. */
static uint16_t *zeros(size_t many) {
    uint16_t *got = calloc(many + 1, sizeof *got);
    no_memory(got);
    return got;
}

static void use(uint16_t *other, size_t many) {
    free(words);
    words = other;
    size = many;
}

static uint8_t *bytes(size_t *length) {
    const char *digits = take_word();
    size_t many = strcmp(digits, "-") == 0 ? 0 : strlen(digits) / 2;
    uint8_t *got = malloc(many + 1);
    no_memory(got);
    for (size_t k = 0; k < many; k++) {
        char two[3] = {digits[2 * k], digits[2 * k + 1], 0};
        got[k] = (uint8_t)strtoul(two, NULL, 16);
    }
    *length = many;
    return got;
}

/* Numbers in groups, of 16 and of 32 bits. */
static void say16(const uint16_t *list, size_t many, size_t group) {
    for (size_t k = 0; k < many; k++)
        printf("%c%u", k % group == 0 ? ' ' : ':', list[k]);
}

static void say32(const uint32_t *list, size_t many, size_t group) {
    for (size_t k = 0; k < many; k++)
        printf("%c%u", k % group == 0 ? ' ' : ':', list[k]);
}

/* Begins the line of an answer; whether the call was accepted. */
static bool accepted(unsigned refused) {
    printf("%u", refused);
    return refused == 0;
}

static size_t count(void) {
    uint64_t numbers[LEMIDROSY_NUMBERS];
    return lemidrosy_refused(lemidrosy_numbers(words, size, numbers, LEMIDROSY_NUMBERS)) == 0 ? (size_t)numbers[0] : 0;
}

/* An answer with a row of n entries. */
static void say_row(uint64_t answer, const uint16_t *row) {
    if (accepted(lemidrosy_answer(answer).refused))
        say16(row, count(), 1);
}

static void start(void) {
    uint32_t counts[256];
    size_t n = 0;
    while (next != NULL)
        counts[n++] = (uint32_t)number();
    uint16_t *fresh = zeros(LEMIDROSY_WORDS);
    if (accepted(lemidrosy_refused(lemidrosy_start(fresh, LEMIDROSY_WORDS, n, counts, n))))
        use(fresh, LEMIDROSY_WORDS);
    else
        free(fresh);
}

/* An answer with an index and what was deleted. */
static void say_stored(struct lemidrosy_answer got, const uint16_t *deleted) {
    if (!accepted(got.refused))
        return;
    printf(" %u", got.value);
    say16(deleted, 2 * got.deletions, 2);
}

static void checkpoint(void) {
    uint16_t deleted[LEMIDROSY_DELETIONS];
    say_stored(lemidrosy_answer(lemidrosy_checkpoint(words, size, (size_t)number(), deleted, LEMIDROSY_DELETIONS)), deleted);
}

static void send_one(void) {
    size_t sender = (size_t)number(), receiver = (size_t)number();
    struct lemidrosy_answer got = lemidrosy_answer(lemidrosy_send(words, size, sender, receiver));
    if (accepted(got.refused))
        printf(" %u", got.value);
}

/* An answer with the index of a forced checkpoint or none, what rose and what was deleted. */
static void say_delivered(struct lemidrosy_answer got, const uint16_t *deleted) {
    if (!accepted(got.refused))
        return;
    if (got.has_value)
        printf(" %u %u", got.value, got.rose);
    else
        printf(" - %u", got.rose);
    say16(deleted, 2 * got.deletions, 2);
}

static void deliver(void) {
    uint16_t deleted[LEMIDROSY_DELETIONS];
    struct lemidrosy_answer got = lemidrosy_answer(lemidrosy_deliver(words, size, (uint32_t)number(), deleted, LEMIDROSY_DELETIONS));
    say_delivered(got, deleted);
}

static void lose(void) { accepted(lemidrosy_refused(lemidrosy_lose(words, size, (uint32_t)number()))); }

static void line(void) {
    uint16_t row[LEMIDROSY_PROCESSES];
    uint64_t got = lemidrosy_line(words, size, (uint32_t)number(), row, LEMIDROSY_PROCESSES);
    say_row(got, row);
}

/* An answer with how many rolled back, the line and what was deleted. */
static void say_recovered(struct lemidrosy_answer got, const uint16_t *row, size_t n, const uint16_t *deleted) {
    if (!accepted(got.refused))
        return;
    printf(" %u", got.value);
    say16(row, n, 1);
    say16(deleted, 2 * got.deletions, 2);
}

static void recover(void) {
    uint16_t deleted[LEMIDROSY_DELETIONS], row[LEMIDROSY_PROCESSES];
    size_t n = count();
    struct lemidrosy_answer got = lemidrosy_answer(lemidrosy_recover(words, size, (uint32_t)number(), deleted, LEMIDROSY_DELETIONS, row, LEMIDROSY_PROCESSES));
    say_recovered(got, row, n, deleted);
}

static void lost(void) {
    uint32_t list[LEMIDROSY_THREES];
    struct lemidrosy_answer got = lemidrosy_answer(lemidrosy_lost(words, size, (uint32_t)number(), list, LEMIDROSY_THREES));
    if (accepted(got.refused))
        say32(list, 3 * got.value, 3);
}

/* The next word, a pair. */
static void pair(uint32_t two[2]) {
    char *second, *word = take_word();
    two[0] = (uint32_t)strtoul(word, &second, 10);
    two[1] = (uint32_t)strtoul(second + 1, NULL, 10);
}

static void earliest(void) {
    uint32_t named[256];
    uint16_t row[LEMIDROSY_PROCESSES];
    size_t many = 0;
    for (; next != NULL; many += 2)
        pair(named + many);
    say_row(lemidrosy_earliest(words, size, named, many, row, LEMIDROSY_PROCESSES), row);
}

static void is_sound(void) { printf("0 %d", lemidrosy_is_sound(words, size)); }

static void numbers(void) {
    uint64_t read[LEMIDROSY_NUMBERS];
    if (!accepted(lemidrosy_refused(lemidrosy_numbers(words, size, read, LEMIDROSY_NUMBERS))))
        return;
    for (size_t k = 0; k < LEMIDROSY_NUMBERS; k++)
        printf(" %llu", (unsigned long long)read[k]);
}

static void vector(void) {
    uint16_t row[LEMIDROSY_PROCESSES];
    uint64_t got = lemidrosy_vector(words, size, (size_t)number(), row, LEMIDROSY_PROCESSES);
    say_row(got, row);
}

static void pins(void) {
    uint16_t row[LEMIDROSY_PROCESSES];
    if (!accepted(lemidrosy_refused(lemidrosy_pins(words, size, (size_t)number(), row, LEMIDROSY_PROCESSES))))
        return;
    size_t n = count();
    for (size_t f = 0; f < n; f++)
        if (row[f] == 0)
            printf(" -");
        else
            printf(" %d", row[f] - 1);
}

static void kept(void) {
    uint32_t list[3 * LEMIDROSY_PROCESSES];
    struct lemidrosy_answer got = lemidrosy_answer(lemidrosy_kept(words, size, (size_t)number(), list, 3 * LEMIDROSY_PROCESSES));
    if (accepted(got.refused))
        say32(list, 3 * got.value, 3);
}

static void messages(void) {
    uint32_t list[LEMIDROSY_THREES];
    struct lemidrosy_answer got = lemidrosy_answer(lemidrosy_messages(words, size, list, LEMIDROSY_THREES));
    if (accepted(got.refused))
        say32(list, 3 * got.value, 3);
}

static void carried(void) {
    uint16_t row[LEMIDROSY_PROCESSES];
    uint64_t got = lemidrosy_carried(words, size, (uint32_t)number(), row, LEMIDROSY_PROCESSES);
    say_row(got, row);
}

static void spread(void) {
    size_t many = (size_t)number();
    use(zeros(many), many);
    while (next != NULL) {
        uint32_t place[2];
        pair(place);
        words[place[0]] = (uint16_t)place[1];
    }
    accepted(0);
}

static void dump(void) {
    FILE *file = fopen(take_word(), "wb");
    bool done = file != NULL && fwrite(words, sizeof *words, size, file) == size;
    if (file == NULL || fclose(file) != 0 || !done)
        exit(4);
    accepted(0);
}

static void take(void) {
    FILE *file = fopen(take_word(), "rb");
    uint16_t *fresh = zeros(LEMIDROSY_WORDS);
    if (file == NULL || fread(fresh, sizeof *fresh, LEMIDROSY_WORDS, file) != LEMIDROSY_WORDS)
        exit(4);
    fclose(file);
    use(fresh, LEMIDROSY_WORDS);
    accepted(0);
}

/* As many blocks as it takes. */
static void replay(void) {
    bool all = number() == 1;
    uint64_t done = number();
    size_t length, taken = 0, written = 0;
    uint8_t *records = bytes(&length), text[8192], *lines = malloc(3200 * (length / 4) + 1);
    uint64_t progress[3] = {0, 0, 1};
    no_memory(lines);
    do {
        uint64_t got = lemidrosy_replay(words, size, all, done + taken, records + 4 * taken, length - 4 * taken, text, sizeof text, progress, 3);
        if (lemidrosy_refused(got) != 0)
            exit(5);
        memcpy(lines + written, text, progress[1]);
        taken += progress[0];
        written += progress[1];
    } while (progress[0] > 0 && progress[2] == 1);
    printf("0 %zu %d %s", taken, progress[2] == 1, written == 0 ? "-" : "");
    for (size_t k = 0; k < written; k++)
        printf("%02x", lines[k]);
    free(records);
    free(lines);
}

static void save(void) {
    uint8_t saved[LEMIDROSY_SAVED];
    const char *name = take_word();
    struct lemidrosy_answer got = lemidrosy_answer(lemidrosy_save(words, size, saved, sizeof saved));
    if (!accepted(got.refused))
        return;
    FILE *file = fopen(name, "wb");
    bool done = file != NULL && fwrite(saved, 1, got.value, file) == got.value;
    if (file == NULL || fclose(file) != 0 || !done)
        exit(4);
}

static void load(void) {
    size_t length;
    uint8_t *saved = bytes(&length);
    uint16_t *fresh = zeros(LEMIDROSY_WORDS);
    if (accepted(lemidrosy_refused(lemidrosy_load(saved, length, fresh, LEMIDROSY_WORDS))))
        use(fresh, LEMIDROSY_WORDS);
    else
        free(fresh);
    free(saved);
}

/* A number of these functions that is below 0 is an error of the system. */
static void store_file(void) {
    const char *name = take_word();
    int got = size == LEMIDROSY_WORDS ? lemidrosy_store_file(name, words) : LEMIDROSY_UNSOUND_STATE;
    if (got < 0)
        exit(4);
    accepted((unsigned)got);
}

static void load_file(void) {
    uint16_t *fresh = zeros(LEMIDROSY_WORDS);
    int got = lemidrosy_load_file(take_word(), fresh);
    if (got < 0)
        exit(4);
    if (accepted((unsigned)got))
        use(fresh, LEMIDROSY_WORDS);
    else
        free(fresh);
}

static void judge(void) {
    size_t length;
    uint8_t *trace = bytes(&length);
    struct lemidrosy_verdict got = lemidrosy_verdict(lemidrosy_judge(trace, length));
    free(trace);
    if (accepted(got.refused) && got.breaks)
        printf(" %u:%u %u:%u", got.near_process, got.near_index, got.far_process, got.far_index);
}

static void merge(void) {
    size_t first_length, second_length;
    uint32_t set = (uint32_t)number();
    uint8_t *first = bytes(&first_length), *second = bytes(&second_length), *trace = malloc(first_length + second_length + 1);
    no_memory(trace);
    struct lemidrosy_answer got = lemidrosy_answer(lemidrosy_merge(first, first_length, second, second_length, set, trace, first_length + second_length));
    if (accepted(got.refused))
        putchar(' ');
    for (size_t k = 0; k < got.value; k++)
        printf("%02x", trace[k]);
    free(first);
    free(second);
    free(trace);
}

static void simulate(void) {
    uint64_t figures[5];
    size_t n = (size_t)number();
    uint32_t spacing = (uint32_t)number(), steps = (uint32_t)number(), seed = (uint32_t)number();
    if (!accepted(lemidrosy_refused(lemidrosy_simulate(n, spacing, steps, seed, figures, 5))))
        return;
    for (size_t k = 0; k < 5; k++)
        printf(" %llu", (unsigned long long)figures[k]);
}

/* The calls through the console: the caller comes first. */
static uint32_t role, owned;

static void caller(void) {
    role = (uint32_t)number();
    owned = (uint32_t)number();
}

static void console_start(void) {
    uint32_t counts[256];
    size_t n = 0;
    caller();
    while (next != NULL)
        counts[n++] = (uint32_t)number();
    uint16_t *fresh = zeros(LEMIDROSY_WORDS);
    if (accepted(lemidrosy_refused(lemidrosy_console_start(role, owned, fresh, LEMIDROSY_WORDS, n, counts, n))))
        use(fresh, LEMIDROSY_WORDS);
    else
        free(fresh);
}

static void console_checkpoint(void) {
    uint16_t deleted[LEMIDROSY_DELETIONS];
    caller();
    say_stored(lemidrosy_answer(lemidrosy_console_checkpoint(role, owned, words, size, (size_t)number(), deleted, LEMIDROSY_DELETIONS)), deleted);
}

static void console_send(void) {
    caller();
    size_t sender = (size_t)number(), receiver = (size_t)number();
    struct lemidrosy_answer got = lemidrosy_answer(lemidrosy_console_send(role, owned, words, size, sender, receiver));
    if (accepted(got.refused))
        printf(" %u", got.value);
}

static void console_deliver(void) {
    uint16_t deleted[LEMIDROSY_DELETIONS];
    caller();
    struct lemidrosy_answer got = lemidrosy_answer(lemidrosy_console_deliver(role, owned, words, size, (uint32_t)number(), deleted, LEMIDROSY_DELETIONS));
    say_delivered(got, deleted);
}

static void console_lose(void) {
    caller();
    accepted(lemidrosy_refused(lemidrosy_console_lose(role, owned, words, size, (uint32_t)number())));
}

/* A place that is left as it was lent, once with 0 and once with 1, is not the caller's. */
static void console_line(void) {
    uint16_t one[LEMIDROSY_PROCESSES] = {0}, other[LEMIDROSY_PROCESSES];
    caller();
    uint32_t failed = (uint32_t)number();
    for (size_t p = 0; p < LEMIDROSY_PROCESSES; p++)
        other[p] = 1;
    uint64_t got = lemidrosy_console_line(role, owned, words, size, failed, one, LEMIDROSY_PROCESSES);
    if (lemidrosy_console_line(role, owned, words, size, failed, other, LEMIDROSY_PROCESSES) != got)
        exit(5);
    if (!accepted(lemidrosy_refused(got)))
        return;
    size_t n = count();
    for (size_t p = 0; p < n; p++)
        if (one[p] == other[p])
            printf(" %u", one[p]);
        else
            printf(" -");
}

static void console_recover(void) {
    uint16_t deleted[LEMIDROSY_DELETIONS], row[LEMIDROSY_PROCESSES];
    size_t n = count();
    caller();
    struct lemidrosy_answer got = lemidrosy_answer(lemidrosy_console_recover(role, owned, words, size, (uint32_t)number(), deleted, LEMIDROSY_DELETIONS, row, LEMIDROSY_PROCESSES));
    say_recovered(got, row, n, deleted);
}

static void console_earliest(void) {
    uint32_t named[256];
    uint16_t row[LEMIDROSY_PROCESSES];
    size_t many = 0;
    caller();
    for (; next != NULL; many += 2)
        pair(named + many);
    say_row(lemidrosy_console_earliest(role, owned, words, size, named, many, row, LEMIDROSY_PROCESSES), row);
}

static void console_list(void) {
    uint16_t listed[LEMIDROSY_DELETIONS];
    caller();
    struct lemidrosy_answer got = lemidrosy_answer(lemidrosy_console_list(role, owned, words, size, listed, LEMIDROSY_DELETIONS));
    if (accepted(got.refused))
        say16(listed, 2 * got.value, 2);
}

static void console_counts(void) {
    uint16_t row[LEMIDROSY_PROCESSES];
    caller();
    say_row(lemidrosy_console_counts(role, owned, words, size, row, LEMIDROSY_PROCESSES), row);
}

/* The calls through the recorder, which has a state of its own, a buffer and the place of its next byte. A refused start leaves them. */
static uint16_t tape[LEMIDROSY_WORDS];
static uint8_t buffer[1 << 16];
static uint64_t place;

/* An answer with a row of as many entries as the recorder's state has processes. */
static void say_tape(uint64_t answer, const uint16_t *row) {
    if (accepted(lemidrosy_refused(answer)))
        say16(row, buffer[0], 1);
}

static void record_start(void) {
    uint32_t counts[256];
    size_t n = 0;
    while (next != NULL)
        counts[n++] = (uint32_t)number();
    uint16_t *fresh = zeros(LEMIDROSY_WORDS);
    if (accepted(lemidrosy_refused(lemidrosy_record_start(fresh, LEMIDROSY_WORDS, n, counts, n, buffer, sizeof buffer, &place, 1))))
        memcpy(tape, fresh, sizeof tape);
    free(fresh);
}

static void record_checkpoint(void) {
    uint16_t deleted[LEMIDROSY_DELETIONS];
    uint64_t got = lemidrosy_record_checkpoint(tape, LEMIDROSY_WORDS, (size_t)number(), deleted, LEMIDROSY_DELETIONS, buffer, sizeof buffer, &place, 1);
    say_stored(lemidrosy_answer(got), deleted);
}

static void record_send(void) {
    size_t sender = (size_t)number(), receiver = (size_t)number();
    struct lemidrosy_answer got = lemidrosy_answer(lemidrosy_record_send(tape, LEMIDROSY_WORDS, sender, receiver, buffer, sizeof buffer, &place, 1));
    if (accepted(got.refused))
        printf(" %u", got.value);
}

static void record_deliver(void) {
    uint16_t deleted[LEMIDROSY_DELETIONS];
    uint64_t got = lemidrosy_record_deliver(tape, LEMIDROSY_WORDS, (uint32_t)number(), deleted, LEMIDROSY_DELETIONS, buffer, sizeof buffer, &place, 1);
    say_delivered(lemidrosy_answer(got), deleted);
}

static void record_lose(void) { accepted(lemidrosy_refused(lemidrosy_record_lose(tape, LEMIDROSY_WORDS, (uint32_t)number(), buffer, sizeof buffer, &place, 1))); }

static void record_line(void) {
    uint16_t row[LEMIDROSY_PROCESSES];
    uint64_t got = lemidrosy_record_line(tape, LEMIDROSY_WORDS, (uint32_t)number(), row, LEMIDROSY_PROCESSES, buffer, sizeof buffer, &place, 1);
    say_tape(got, row);
}

static void record_recover(void) {
    uint16_t deleted[LEMIDROSY_DELETIONS], row[LEMIDROSY_PROCESSES];
    uint32_t failed = (uint32_t)number();
    uint64_t got = lemidrosy_record_recover(tape, LEMIDROSY_WORDS, failed, deleted, LEMIDROSY_DELETIONS, row, LEMIDROSY_PROCESSES, buffer, sizeof buffer, &place, 1);
    say_recovered(lemidrosy_answer(got), row, buffer[0], deleted);
}

static void record_earliest(void) {
    uint32_t named[256];
    uint16_t row[LEMIDROSY_PROCESSES];
    size_t many = 0;
    for (; next != NULL; many += 2)
        pair(named + many);
    say_tape(lemidrosy_record_earliest(tape, LEMIDROSY_WORDS, named, many, row, LEMIDROSY_PROCESSES, buffer, sizeof buffer, &place, 1), row);
}

static void record_trace(void) {
    printf("0 ");
    for (size_t k = 0; k < place; k++)
        printf("%02x", buffer[k]);
}

static const struct {
    const char *name;
    void (*make)(void);
} calls[] = {
    {"start", start}, {"checkpoint", checkpoint}, {"send", send_one}, {"deliver", deliver}, {"lose", lose}, {"line", line}, {"recover", recover}, {"lost", lost}, {"earliest", earliest},
    {"is_sound", is_sound}, {"numbers", numbers}, {"vector", vector}, {"pins", pins}, {"kept", kept}, {"messages", messages}, {"carried", carried},
    {"words", spread}, {"dump", dump}, {"take", take}, {"replay", replay}, {"save", save}, {"load", load}, {"store_file", store_file}, {"load_file", load_file},
    {"judge", judge}, {"merge", merge}, {"simulate", simulate},
    {"console_start", console_start}, {"console_checkpoint", console_checkpoint}, {"console_send", console_send}, {"console_deliver", console_deliver},
    {"console_lose", console_lose}, {"console_line", console_line}, {"console_recover", console_recover}, {"console_earliest", console_earliest},
    {"console_list", console_list}, {"console_counts", console_counts},
    {"record_start", record_start}, {"record_checkpoint", record_checkpoint}, {"record_send", record_send}, {"record_deliver", record_deliver},
    {"record_lose", record_lose}, {"record_line", record_line}, {"record_recover", record_recover}, {"record_earliest", record_earliest},
    {"record_trace", record_trace},
};

int main(void) {
    char *text = NULL;
    size_t room = 0;
    ssize_t length;
    use(zeros(0), 0);
    while ((length = getline(&text, &room, stdin)) > 0) {
        if (text[length - 1] == '\n')
            text[length - 1] = 0;
        next = text;
        const char *name = take_word();
        size_t k = 0;
        while (k < sizeof calls / sizeof calls[0] && strcmp(calls[k].name, name) != 0)
            k++;
        if (k == sizeof calls / sizeof calls[0])
            return fprintf(stderr, "no such call: %s\n", name), 1;
        calls[k].make();
        putchar('\n');
    }
    free(text);
    free(words);
    return 0;
}
