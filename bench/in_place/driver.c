// driver REPEATS BY_VALUE TRACE..: nanoseconds a call over the records of each trace, text left out, by every way of making the calls; the least of REPEATS, in
// alternation, CPU time. The calls by value are made over the first BY_VALUE records. A line for each trace: its name, then the figures in the order of `ways`.
#include "calls.h"
#include "reference.h"
#include <stdio.h>
#include <stdlib.h>
#include <time.h>

enum { RECORD = 4, DELETIONS = 2 * PROCESSES * PROCESSES };

static uint8_t *trace;
static size_t size, by_value_records;
static uint16_t words[WORDS] __attribute__((aligned(64)));
static struct reference state;
static uint16_t deleted[DELETIONS], line[PROCESSES];
static const uint32_t ones[PROCESSES] = {1, 1, 1, 1, 1, 1, 1, 1, 1, 1, 1, 1, 1, 1, 1, 1};

// What every way returns: how many calls were accepted, so that no call is left out and the ways can be compared.
typedef uint64_t way(void);

struct fields {
    unsigned kind, process, argument;
};

static inline struct fields fields_of(const uint8_t *part)
{
    uint32_t w = (uint32_t)part[0] << 24 | (uint32_t)part[1] << 16 | (uint32_t)part[2] << 8 | part[3];
    return (struct fields){w >> 29, w >> 25 & 15, w & 0x1ffffff};
}

// The records of the trace, each as the call that its kind names. A trace of the generator has no malformed record that a call would not refuse.
#define MAKE_CALLS(START, CHECKPOINT, SEND, DELIVER, LOSE, RECOVER)                    \
    uint64_t accepted = 0;                                                             \
    START;                                                                             \
    for (size_t at = 1; at + RECORD <= size; at += RECORD) {                           \
        struct fields r = fields_of(trace + at);                                       \
        uint64_t said = 14;                                                            \
        switch (r.kind) {                                                              \
        case 0: said = CHECKPOINT; break;                                              \
        case 1: said = SEND; break;                                                    \
        case 2: said = DELIVER; break;                                                 \
        case 3: said = LOSE; break;                                                    \
        case 4: said = RECOVER; break;                                                 \
        }                                                                              \
        accepted += (said & 255) == 0;                                                 \
    }                                                                                  \
    return accepted

static uint64_t in_place_tested(void)
{
    MAKE_CALLS(lemidrosy_start(words, WORDS, trace[0], ones, PROCESSES),
               lemidrosy_checkpoint(words, WORDS, r.process, deleted, DELETIONS),
               lemidrosy_send(words, WORDS, r.process, r.argument),
               lemidrosy_deliver(words, WORDS, r.argument, deleted, DELETIONS),
               lemidrosy_lose(words, WORDS, r.argument),
               lemidrosy_recover(words, WORDS, r.argument, deleted, DELETIONS, line, PROCESSES));
}

static uint64_t in_place_untested(void) { return timing_untested(words, WORDS, trace[0], trace, size); }

static uint64_t by_value(void)
{
    size_t most = 1 + RECORD * by_value_records;
    return timing_by_value(trace[0], trace, size < most ? size : most);
}

static uint64_t c_tested(void)
{
    MAKE_CALLS(reference_start(&state, trace[0], ones),
               reference_checkpoint(&state, r.process, deleted, DELETIONS),
               reference_send(&state, r.process, r.argument),
               reference_deliver(&state, r.argument, deleted, DELETIONS),
               reference_lose(&state, r.argument),
               reference_recover(&state, r.argument, deleted, DELETIONS, line, PROCESSES));
}

static uint64_t c_untested(void)
{
    MAKE_CALLS(reference_start(&state, trace[0], ones),
               reference_checkpoint_on(&state, r.process, deleted, DELETIONS),
               reference_send_on(&state, r.process, r.argument),
               reference_deliver_on(&state, r.argument, deleted, DELETIONS),
               reference_lose_on(&state, r.argument),
               reference_recover_on(&state, r.argument, deleted, DELETIONS, line, PROCESSES));
}

enum { BY_VALUE, TESTED, C_TESTED, UNTESTED, C_UNTESTED, WAYS };
static way *const ways[WAYS] = {by_value, in_place_tested, c_tested, in_place_untested, c_untested};

static double now(void)
{
    struct timespec t;
    clock_gettime(CLOCK_PROCESS_CPUTIME_ID, &t);
    return 1e9 * (double)t.tv_sec + (double)t.tv_nsec;
}

static void read_trace(const char *path)
{
    FILE *file = fopen(path, "rb");
    if (!file || fseek(file, 0, SEEK_END)) {
        perror(path);
        exit(1);
    }
    size = (size_t)ftell(file);
    rewind(file);
    free(trace);
    trace = malloc(size);
    if (!trace || fread(trace, 1, size, file) != size) {
        perror(path);
        exit(1);
    }
    fclose(file);
}

// The least time of each way, and whether all but the calls by value, which stop earlier, accepted the same records.
static void time_trace(const char *path, int repeats)
{
    double least[WAYS];
    uint64_t accepted[WAYS];
    read_trace(path);
    size_t records = (size - 1) / RECORD;
    for (int k = 0; k < repeats * WAYS; k++) {
        int w = k % WAYS;
        double begun = now();
        accepted[w] = ways[w]();
        double took = now() - begun;
        if (k < WAYS || took < least[w])
            least[w] = took;
    }
    for (int w = TESTED; w < WAYS; w++)
        if (accepted[w] != accepted[TESTED]) {
            fprintf(stderr, "%s: %llu and %llu calls accepted\n", path, (unsigned long long)accepted[TESTED], (unsigned long long)accepted[w]);
            exit(1);
        }
    printf("%s", path);
    for (int w = 0; w < WAYS; w++)
        printf(" %.2f", least[w] / (double)(w == BY_VALUE && by_value_records < records ? by_value_records : records));
    putchar('\n');
}

int main(int count, char **arguments)
{
    if (count < 4) {
        fprintf(stderr, "usage: %s REPEATS BY_VALUE TRACE..\n", arguments[0]);
        return 2;
    }
    by_value_records = strtoul(arguments[2], NULL, 10);
    for (int k = 3; k < count; k++)
        time_trace(arguments[k], atoi(arguments[1]));
    return 0;
}
