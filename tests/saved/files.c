// A state in a file: what a store leaves that ends at any of its steps, that is killed at any moment, that fails, that has company.
//
//     files PART FOLDER COUNT SEED
//
// PART is one of order, crashes, kills, errors, company. The folder is empty at first. Prints how many times it looked, or the first thing that is wrong; then the
// status is 1. What the library asks of the system comes through here (--wrap): it is noted, and where a test says so it fails, is cut short or ends the process.
#define _GNU_SOURCE
#include <dirent.h>
#include <errno.h>
#include <fcntl.h>
#include <signal.h>
#include <stdarg.h>
#include <stdio.h>
#include <stdlib.h>
#include <string.h>
#include <sys/resource.h>
#include <sys/stat.h>
#include <sys/wait.h>
#include <time.h>
#include <unistd.h>

#include "lemidrosy.h"

static char path[4096], folder[4000];
static unsigned long looked;

static void wrong(const char *what, long got, long right) {
    printf("%s: %ld, and %ld is right\n", what, got, right);
    exit(1);
}

static void same(const char *what, long got, long right) {
    looked++;
    if (got != right)
        wrong(what, got, right);
}

// The steps of a store, one letter each: o and f a file and a folder opened, w written, s and d a file and a folder synced, c closed, r renamed. Step `fatal` is the last
// thing that the process does, half of it if it writes; step `failing` fails with `failure`.
static char steps[256];
static size_t count_steps, most_written;
static bool watched, crowded;
static int fatal, failing, failure, interrupted;

static void watch(void) {
    memset(steps, 0, sizeof steps);
    count_steps = 0;
    fatal = failing = -1;
    failure = interrupted = 0;
    most_written = (size_t)-1;
    watched = true;
}

// Notes a step. Whether it is to be done; if not, errno says why. In a crowd another gets its turn before each, however few the processors are.
static bool step(char letter) {
    if (crowded)
        nanosleep(&(struct timespec){0, 20000}, NULL);
    if (!watched)
        return true;
    if (interrupted > 0 && (letter == 'w' || letter == 's' || letter == 'd')) {
        interrupted--;
        errno = EINTR;
        return false;
    }
    int now = (int)count_steps;
    if (count_steps < sizeof steps - 1)
        steps[count_steps++] = letter;
    if (now == failing) {
        errno = failure;
        return false;
    }
    return true;
}

static void end_here(void) {
    if (watched && fatal >= 0 && (int)count_steps == fatal + 1)
        _exit(9);
}

static bool is_folder(int file) {
    struct stat it;
    return fstat(file, &it) == 0 && S_ISDIR(it.st_mode);
}

int __real_open(const char *name, int flags, ...);
int __wrap_open(const char *name, int flags, ...) {
    va_list rest;
    va_start(rest, flags);
    mode_t mode = flags & O_CREAT ? va_arg(rest, mode_t) : 0;
    va_end(rest);
    if (!step(flags & O_DIRECTORY ? 'f' : 'o'))
        return -1;
    int file = __real_open(name, flags, mode);
    end_here();
    return file;
}

ssize_t __real_write(int file, const void *bytes, size_t many);
ssize_t __wrap_write(int file, const void *bytes, size_t many) {
    if (!step('w'))
        return -1;
    if (watched && fatal >= 0 && (int)count_steps == fatal + 1)
        many /= 2;
    if (watched && many > most_written)
        many = most_written;
    ssize_t done = __real_write(file, bytes, many);
    end_here();
    return done;
}

int __real_fsync(int file);
int __wrap_fsync(int file) {
    if (!step(is_folder(file) ? 'd' : 's'))
        return -1;
    int status = __real_fsync(file);
    end_here();
    return status;
}

int __real_close(int file);
int __wrap_close(int file) {
    bool done = step('c');
    int status = __real_close(file);
    end_here();
    return done ? status : -1;
}

int __real_rename(const char *from, const char *to);
int __wrap_rename(const char *from, const char *to) {
    if (!step('r'))
        return -1;
    int status = __real_rename(from, to);
    end_here();
    return status;
}

// State k: one process that has just begun, with k blocks for a checkpoint.
static const uint16_t *state(uint32_t k) {
    static uint16_t words[LEMIDROSY_WORDS];
    same("a start", (long)lemidrosy_start(words, LEMIDROSY_WORDS, 1, &k, 1), 0);
    return words;
}

static int store(uint32_t k) {
    const uint16_t *words = state(k);
    return lemidrosy_store_file(path, words);
}

// Which state is stored: its number, every word of it compared. The lent words hold another state before, which a refusal leaves.
static uint32_t stored(void) {
    static uint16_t words[LEMIDROSY_WORDS];
    memset(words, 0xa5, sizeof words);
    watched = false;
    int status = lemidrosy_load_file(path, words);
    same("what a load answers", status, 0);
    uint32_t k = words[48];
    same("the words of a stored state", memcmp(words, state(k), sizeof words), 0);
    return k;
}

// How many files there are besides the state's.
static long beside(void) {
    long many = 0;
    DIR *all = opendir(folder);
    if (all == NULL)
        wrong("the folder is there", 0, 1);
    for (struct dirent *one; (one = readdir(all)) != NULL;)
        many += one->d_name[0] != '.' && strcmp(one->d_name, "state") != 0;
    closedir(all);
    return many;
}

// The file reaches the disk before it gets its name, and the folder after it.
static void order(void) {
    for (uint32_t k = 1; k <= 3; k++) {
        watch();
        if (k == 3)
            most_written = 1000;
        same("a store", store(k), 0);
        watched = false;
        const char *right = k == 3 ? "owwwwwwwwwwwwwscrfdc" : "owscrfdc";
        if (strcmp(steps, right) != 0) {
            printf("the steps of a store are %s, and %s is right\n", steps, right);
            exit(1);
        }
        same("the state that is stored", stored(), k);
        same("files beside it", beside(), 0);
    }
}

// The process ends at each of its steps: before the rename the old state is there, from then on the new one.
static void crashes(void) {
    for (int at = 0;; at++) {
        same("a store", store(1), 0);
        pid_t child = fork();
        if (child == 0) {
            watch();
            fatal = at;
            int status = store(2);
            _exit(status == 0 ? 0 : 1);
        }
        int status = 0;
        waitpid(child, &status, 0);
        if (WIFEXITED(status) && WEXITSTATUS(status) == 0) {
            same("the steps of a store", at, (long)strlen("owscrfdc"));
            same("the state that is stored", stored(), 2);
            return;
        }
        same("a store that ends in the middle", WIFEXITED(status) ? WEXITSTATUS(status) : -1, 9);
        same("the state that is stored", stored(), at < 4 ? 1 : 2);
    }
}

static long microseconds(void) {
    struct timespec now;
    clock_gettime(CLOCK_MONOTONIC, &now);
    return now.tv_sec * 1000000L + now.tv_nsec / 1000;
}

// A writer stores state after state and says so; it is killed at a random moment within some four stores. The last state that it has said to be stored is there, or the next.
static void kills(long rounds, unsigned seed) {
    uint32_t last = 0;
    long stores = 0, begun = microseconds();
    srand(seed);
    while (last < 8)
        same("a store", store(++last), 0);
    long within = 1 + (microseconds() - begun) / 2;
    for (long round = 0; round < rounds; round++) {
        int said[2];
        if (pipe(said) != 0)
            wrong("a pipe", errno, 0);
        pid_t child = fork();
        if (child == 0) {
            close(said[0]);
            for (uint32_t k = last + 1;; k++)
                if (store(k) != 0 || write(said[1], &k, sizeof k) != sizeof k)
                    _exit(1);
        }
        close(said[1]);
        long moment = rand() % within;
        struct timespec time = {moment / 1000000, moment % 1000000 * 1000};
        nanosleep(&time, NULL);
        same("a kill", kill(child, SIGKILL), 0);
        int status = 0;
        waitpid(child, &status, 0);
        same("the writer was killed, and had not ended", WIFSIGNALED(status), 1);
        for (uint32_t k; read(said[0], &k, sizeof k) == sizeof k; stores++)
            last = k;
        close(said[0]);
        uint32_t there = stored();
        if (there != last && there != last + 1)
            wrong("the state that is stored", there, last);
        last = there;
        if (last > 60000)
            same("a store", store(last = 1), 0);
    }
    if (stores < rounds / 20)
        wrong("stores in all rounds", stores, rounds);
    printf("stores: %ld\n", stores);
}

// A file of these bytes, and what a load answers: no word is written.
static void refused(const char *what, const uint8_t *bytes, size_t many, int right) {
    static uint16_t words[LEMIDROSY_WORDS], before[LEMIDROSY_WORDS];
    watched = false;
    int file = open(path, O_WRONLY | O_CREAT | O_TRUNC, 0666);
    same("a file", file >= 0 && write(file, bytes, many) == (ssize_t)many && close(file) == 0, 1);
    memset(words, 0xa5, sizeof words);
    memset(before, 0xa5, sizeof before);
    same(what, lemidrosy_load_file(path, words), right);
    same("the words after a load that is refused", memcmp(words, before, sizeof words), 0);
}

static void broken_files(void) {
    static uint8_t bytes[LEMIDROSY_SAVED + 1];
    uint64_t answer = lemidrosy_save(state(7), LEMIDROSY_WORDS, bytes, sizeof bytes);
    same("a save", lemidrosy_value(answer), LEMIDROSY_SAVED);
    refused("an empty file", bytes, 0, 2);
    refused("a part of a state", bytes, 4096, 2);
    refused("a state without its last byte", bytes, LEMIDROSY_SAVED - 1, 2);
    refused("a state and one byte", bytes, LEMIDROSY_SAVED + 1, 2);
    bytes[5000] ^= 1;
    refused("a state with one bit changed", bytes, LEMIDROSY_SAVED, 2);
    uint16_t words[LEMIDROSY_WORDS];
    same("the file is gone", unlink(path), 0);
    same("no file", lemidrosy_load_file(path, words), -ENOENT);
    same("a folder", lemidrosy_load_file(folder, words), -EISDIR);
}

// A store in which this step fails: the old state is there, and nothing else.
static void failed(const char *what, char letter, int error) {
    same("a store", store(1), 0);
    watch();
    failing = (int)(strchr("owscr", letter) - "owscr");
    failure = error;
    same(what, store(2), -error);
    watched = false;
    same("the state that is stored", stored(), 1);
    same("files beside it", beside(), 0);
}

static void full_disk(void) {
    struct rlimit old, few = {8192, RLIM_INFINITY};
    same("a store", store(1), 0);
    signal(SIGXFSZ, SIG_IGN);
    same("a limit", getrlimit(RLIMIT_FSIZE, &old), 0);
    few.rlim_max = old.rlim_max;
    same("a limit", setrlimit(RLIMIT_FSIZE, &few), 0);
    same("a store past the limit", store(2), -EFBIG);
    same("a limit", setrlimit(RLIMIT_FSIZE, &old), 0);
    same("the state that is stored", stored(), 1);
    same("files beside it", beside(), 0);
}

static void errors(void) {
    failed("a file that cannot be made", 'o', EACCES);
    failed("a full disk", 'w', ENOSPC);
    failed("a disk that fails", 's', EIO);
    failed("a disk that fails when the file is closed", 'c', EIO);
    failed("a folder that may not be changed", 'r', EACCES);
    full_disk();
    watch();
    interrupted = 3;
    same("a store that is interrupted", store(3), 0);
    same("the state that is stored", stored(), 3);
    same("a mode", chmod(path, 0640), 0);
    same("a store", store(4), 0);
    struct stat it;
    same("a file", stat(path, &it), 0);
    same("the mode of a file that is stored again", it.st_mode & 07777, 0640);
    uint16_t words[LEMIDROSY_WORDS] = {0};
    same("words that are not sound", lemidrosy_store_file(path, words), 2);
    same("the state that is stored", stored(), 4);
    same("files beside it", beside(), 0);
    char other[sizeof path + 8];
    snprintf(other, sizeof other, "%s/none", path);
    same("a folder that is not there", lemidrosy_store_file(other, state(1)), -ENOTDIR);
    broken_files();
}

// Two writers at a time, and a reader: it always finds one of the two states, whole.
static void company(long rounds) {
    pid_t writers[2];
    same("a store", store(1), 0);
    for (int k = 0; k < 2; k++) {
        writers[k] = fork();
        if (writers[k] == 0) {
            crowded = true;
            for (long round = 0; round < rounds; round++)
                if (store((uint32_t)k + 1) != 0)
                    _exit(1);
            _exit(0);
        }
    }
    for (int ended = 0; ended < 2;) {
        uint32_t there = stored();
        if (there != 1 && there != 2)
            wrong("the state that is stored", there, 1);
        int status;
        if (waitpid(-1, &status, WNOHANG) > 0) {
            same("a writer", status, 0);
            ended++;
        }
    }
    same("files beside it", beside(), 0);
}

int main(int count, char **words) {
    if (count != 5) {
        fprintf(stderr, "usage: files PART FOLDER COUNT SEED\n");
        return 2;
    }
    snprintf(folder, sizeof folder, "%s", words[2]);
    snprintf(path, sizeof path, "%s/state", folder);
    long many = atol(words[3]);
    if (strcmp(words[1], "order") == 0)
        order();
    else if (strcmp(words[1], "crashes") == 0)
        crashes();
    else if (strcmp(words[1], "kills") == 0)
        kills(many, (unsigned)atol(words[4]));
    else if (strcmp(words[1], "errors") == 0)
        errors();
    else if (strcmp(words[1], "company") == 0)
        company(many);
    else
        return 2;
    printf("looked: %lu\n", looked);
    return 0;
}
