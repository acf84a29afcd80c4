// Buffers between pages that nobody may touch, for the programs that call the library from C: tests/calls, tests/blocks, tests/saved. guarded.rs beside this file lends
// them. A program includes it once, and has its main make the buffers and watch.
#ifndef GUARDED_H
#define GUARDED_H

#include <signal.h>
#include <stdbool.h>
#include <stdint.h>
#include <stdio.h>
#include <stdlib.h>
#include <string.h>
#include <sys/mman.h>
#include <unistd.h>

enum { MOST_BUFFERS = 8, FILLING = 0xa5 };

// A buffer is some pages with a page on either side that may not be touched. What is lent lies at its end or at its beginning; the rest holds FILLING.
static struct buffer {
    unsigned char *pages;
    size_t size, at, lent;
} buffers[MOST_BUFFERS];

static unsigned char filling[64 * 65536];

// That many buffers, with that many pages each.
static void make_buffers(const size_t *pages, int count) {
    size_t page = (size_t)sysconf(_SC_PAGESIZE);
    memset(filling, FILLING, sizeof filling);
    for (int k = 0; k < count; k++) {
        size_t size = pages[k] * page;
        unsigned char *all = mmap(NULL, size + 2 * page, PROT_NONE, MAP_PRIVATE | MAP_ANONYMOUS, -1, 0);
        if (all == MAP_FAILED || size > sizeof filling || mprotect(all + page, size, PROT_READ | PROT_WRITE) != 0) {
            fprintf(stderr, "driver: no memory\n");
            exit(1);
        }
        buffers[k].pages = all + page;
        buffers[k].size = size;
        memset(buffers[k].pages, FILLING, buffers[k].size);
    }
}

// The bytes that are lent of a buffer.
unsigned char *lend(int buffer, size_t bytes, bool at_end) {
    struct buffer *b = &buffers[buffer];
    if (bytes > b->size) {
        fprintf(stderr, "driver: a buffer is too small\n");
        exit(1);
    }
    b->at = at_end ? b->size - bytes : 0;
    b->lent = bytes;
    return b->pages + b->at;
}

// Whether nothing but what was lent was written.
bool take_back(int buffer) {
    struct buffer *b = &buffers[buffer];
    size_t after = b->at + b->lent;
    bool same = memcmp(b->pages, filling, b->at) == 0 && memcmp(b->pages + after, filling, b->size - after) == 0;
    memset(b->pages + b->at, FILLING, b->lent);
    b->at = b->lent = 0;
    return same;
}

// Memory that was not lent was touched: the call is named, which the seed gives again.
static volatile uint64_t call_now;

void about_to(uint64_t call) {
    call_now = call;
}

static void touched(int signal) {
    char text[80];
    (void)signal;
    int size = snprintf(text, sizeof text, "call %llu: it touches memory that was not lent\n", (unsigned long long)call_now);
    if (write(STDOUT_FILENO, text, (size_t)size) < 0)
        _exit(2);
    _exit(1);
}

static void watch(void) {
    signal(SIGSEGV, touched);
    signal(SIGBUS, touched);
}

// The oracle makes many small vectors: no stack is kept of each.
const char *__asan_default_options(void) {
    return "handle_segv=0:handle_sigbus=0:detect_leaks=0:malloc_context_size=0:quarantine_size_mb=1:max_malloc_fill_size=0:intercept_memcmp=0";
}

#endif
