/* drive PROGRAM [WORD..]: judge, replay, record, merge, simulate or console as a machine, driven with this program's own files. What is read, written and reported, the machine decides. The status is
   3 if the system failed. */
#define _POSIX_C_SOURCE 200809L
#include "lemidrosy.h"
#include <errno.h>
#include <fcntl.h>
#include <stdio.h>
#include <string.h>
#include <unistd.h>

/* What is lent to the machine: enough for each of them. */
static uint64_t memory[LEMIDROSY_SIMULATE_MEMORY], request[LEMIDROSY_REQUEST];
static uint16_t words[LEMIDROSY_WORDS];
static uint8_t input[LEMIDROSY_MERGE_INPUT], out[LEMIDROSY_RECORD_OUT], lines[LEMIDROSY_RECORD_LINES];

struct answer {
    uint64_t kind;
    size_t number;
};

static uint64_t begin(const char *program) {
    if (strcmp(program, "judge") == 0)
        return lemidrosy_judge_begin(memory, LEMIDROSY_JUDGE_MEMORY, input, sizeof input, out, sizeof out, request, LEMIDROSY_REQUEST);
    if (strcmp(program, "replay") == 0)
        return lemidrosy_replay_begin(words, LEMIDROSY_WORDS, memory, LEMIDROSY_REPLAY_MEMORY, input, sizeof input, out, sizeof out, request, LEMIDROSY_REQUEST);
    if (strcmp(program, "record") == 0)
        return lemidrosy_record_begin(memory, LEMIDROSY_RECORD_MEMORY, words, LEMIDROSY_WORDS, input, sizeof input, out, sizeof out, lines, sizeof lines, request, LEMIDROSY_REQUEST);
    if (strcmp(program, "merge") == 0)
        return lemidrosy_merge_begin(memory, LEMIDROSY_MERGE_MEMORY, input, sizeof input, out, sizeof out, request, LEMIDROSY_REQUEST);
    if (strcmp(program, "simulate") == 0)
        return lemidrosy_simulate_begin(memory, LEMIDROSY_SIMULATE_MEMORY, input, sizeof input, out, sizeof out, request, LEMIDROSY_REQUEST);
    if (strcmp(program, "console") == 0)
        return lemidrosy_console_begin(words, LEMIDROSY_WORDS, memory, LEMIDROSY_CONSOLE_MEMORY, input, sizeof input, out, sizeof out, request, LEMIDROSY_REQUEST);
    return LEMIDROSY_LIST_TOO_SHORT;
}

static void step(const char *program, struct answer a) {
    if (strcmp(program, "judge") == 0)
        lemidrosy_judge_step(memory, LEMIDROSY_JUDGE_MEMORY, input, sizeof input, out, sizeof out, a.kind, a.number, request, LEMIDROSY_REQUEST);
    else if (strcmp(program, "replay") == 0)
        lemidrosy_replay_step(words, LEMIDROSY_WORDS, memory, LEMIDROSY_REPLAY_MEMORY, input, sizeof input, out, sizeof out, a.kind, a.number, request, LEMIDROSY_REQUEST);
    else if (strcmp(program, "record") == 0)
        lemidrosy_record_step(memory, LEMIDROSY_RECORD_MEMORY, words, LEMIDROSY_WORDS, input, sizeof input, out, sizeof out, lines, sizeof lines, a.kind, a.number, request, LEMIDROSY_REQUEST);
    else if (strcmp(program, "merge") == 0)
        lemidrosy_merge_step(memory, LEMIDROSY_MERGE_MEMORY, input, sizeof input, out, sizeof out, a.kind, a.number, request, LEMIDROSY_REQUEST);
    else if (strcmp(program, "simulate") == 0)
        lemidrosy_simulate_step(memory, LEMIDROSY_SIMULATE_MEMORY, input, sizeof input, out, sizeof out, a.kind, a.number, request, LEMIDROSY_REQUEST);
    else
        lemidrosy_console_step(words, LEMIDROSY_WORDS, memory, LEMIDROSY_CONSOLE_MEMORY, input, sizeof input, out, sizeof out, a.kind, a.number, request, LEMIDROSY_REQUEST);
}

static struct answer answer(uint64_t kind, size_t number) {
    struct answer a = {kind, number};
    return a;
}

static struct answer done(bool is_done) {
    return answer(is_done ? LEMIDROSY_ANSWER_DONE : LEMIDROSY_ANSWER_FAILED, 0);
}

static bool write_all(int file, const uint8_t *bytes, size_t size) {
    while (size > 0) {
        ssize_t written = write(file, bytes, size);
        if (written < 0)
            return false;
        bytes += written;
        size -= (size_t)written;
    }
    return true;
}

static struct answer bytes_from(int file, uint8_t *to, size_t most) {
    ssize_t got = read(file, to, most);
    if (got < 0)
        return done(false);
    return got == 0 ? answer(LEMIDROSY_ANSWER_END, 0) : answer(LEMIDROSY_ANSWER_BYTES, (size_t)got);
}

static struct answer failed(int reason) {
    errno = reason;
    return done(false);
}

static struct answer word(const char *text, uint8_t *to, size_t most) {
    if (text == NULL)
        return failed(EINVAL);
    if (strlen(text) > most)
        return failed(ENAMETOOLONG);
    memcpy(to, text, strlen(text));
    return answer(LEMIDROSY_ANSWER_BYTES, strlen(text));
}

/* The file whose name the machine has put into out; it is open to the program's end. */
static struct answer opened(size_t size, int *source) {
    char name[4097] = "";
    if (size >= sizeof name)
        return failed(ENAMETOOLONG);
    memcpy(name, out, size);
    int file = open(name, O_RDONLY);
    if (file >= 0)
        *source = file;
    return done(file >= 0);
}

/* Does what the machine asks for. The words are those that it was started with, from its name on, and a null pointer after them. */
static struct answer obey(char **started, size_t count, int *source) {
    size_t size = (size_t)request[1];
    uint8_t *place = input + request[2];
    switch (request[0]) {
    case LEMIDROSY_REQUEST_READ: return bytes_from(*source, place, size);
    case LEMIDROSY_REQUEST_WRITE: return done(write_all(STDOUT_FILENO, out, size));
    case LEMIDROSY_REQUEST_SAY: return done(write_all(STDERR_FILENO, out, size));
    case LEMIDROSY_REQUEST_FAIL: return done(fprintf(stderr, "%.*s: %s\n", (int)size, (char *)out, strerror(errno)) >= 0);
    case LEMIDROSY_REQUEST_COUNT: return answer(LEMIDROSY_ANSWER_NUMBER, count);
    case LEMIDROSY_REQUEST_ARGUMENT: return word(request[3] < count ? started[request[3]] : NULL, place, size);
    case LEMIDROSY_REQUEST_OPEN: return opened(size, source);
    default: return done(false);
    }
}

int main(int count, char **started) {
    if (count < 2 || begin(started[1]) != 0)
        return fprintf(stderr, "usage: drive judge|replay|record|merge|simulate|console [WORD..]\n"), 2;
    int source = STDIN_FILENO, status = 0;
    while (request[0] != LEMIDROSY_REQUEST_STOP) {
        if (request[0] == LEMIDROSY_REQUEST_FAIL)
            status = 3;
        step(started[1], obey(started + 1, (size_t)count - 1, &source));
    }
    return status;
}
