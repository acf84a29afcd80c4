/* A worker: one strip of the reservoir. It asks the coordinator before everything that others see, and waits for the answer; so what it does and what the library is told
   come in the same order. It holds nothing that a checkpoint does not have. */
#define _POSIX_C_SOURCE 200809L

#include "reservoir.h"

#include <stdio.h>
#include <stdlib.h>
#include <string.h>
#include <sys/socket.h>
#include <time.h>
#include <unistd.h>

static const struct job *job;
static struct strip strip;
static struct message message; /* what is asked, and then the answer */
static int coordinator;

static void pause_for(long microseconds) { nanosleep(&(struct timespec){0, 1000 * microseconds}, NULL); }

static void connect_to_coordinator(void) {
    while ((coordinator = socket_open(job, false)) < 0) {
        if (getppid() != job->starter)
            exit(1);
        pause_for(1000);
    }
}

/* Goes back to a checkpoint: all that was done since is forgotten. */
static void go_back(uint32_t index) {
    uint32_t process = strip.process;
    int status = strip_load(job, process, index, &strip);
    if (status != 0) {
        fprintf(stderr, "reservoir: checkpoint %u-%u cannot be loaded: %s\n", process, index, strerror(-status));
        exit(2);
    }
    if (job->watch >= 0) {
        uint32_t loaded[3] = {process, strip.index, strip.step};
        send(job->watch, loaded, sizeof loaded, MSG_NOSIGNAL);
    }
}

/* Asks, and stores a checkpoint if the answer wants that first. The answer is in `message`; false: it was to go back, and that is done. */
static bool ask(uint32_t kind, uint32_t many) {
    message.kind = kind;
    message.at = strip.step;
    message.many = many;
    if (!message_put(coordinator, &message) || !message_get(coordinator, &message))
        exit(1); /* a worker does not outlive its coordinator */
    while (message.kind == STORE) {
        message.kind = strip_store(job, &strip, message.index) == 0 ? STORED : FULL;
        message.many = 0;
        if (!message_put(coordinator, &message) || !message_get(coordinator, &message))
            exit(1);
    }
    if (message.kind == QUIT)
        exit(0);
    if (message.kind != BACK)
        return true;
    go_back(message.index);
    message.kind = LOADED;
    if (!message_put(coordinator, &message))
        exit(1);
    return false;
}

static bool send_edge(int side, uint32_t step) {
    const double *edge = strip_edge(&strip, side, step);
    if (edge == NULL) {
        fprintf(stderr, "reservoir: %u is asked for its edge of step %u at step %u\n", strip.process, step, strip.step);
        exit(2);
    }
    message.peer = side == UP ? strip.process - 1 : strip.process + 1;
    message.step = step;
    memcpy(message.data, edge, WIDTH * sizeof(double));
    if (!ask(SEND, WIDTH))
        return false;
    if (strip.sent[side] < step + 1)
        strip.sent[side] = step + 1;
    strip.events++;
    return true;
}

/* An edge that it has already is left alone. */
static void take_in(void) {
    int side = message.peer < strip.process ? UP : DOWN, slot = message.step % 2;
    strip.events++;
    if (message.step < strip.step)
        return;
    strip.got[side][slot] = message.step + 1;
    memcpy(strip.edge[side][slot], message.data, WIDTH * sizeof(double));
}

/* One thing of what is to be done next. */
static void go_on(void) {
    if (strip.events >= job->spacing) {
        strip.events = 0;
        ask(CHECKPOINT, 0);
        return;
    }
    for (int side = 0; side < SIDES; side++)
        if (strip_has(job, strip.process, side) && strip.sent[side] <= strip.step && strip.step < job->steps) {
            send_edge(side, strip.step);
            return;
        }
    if (strip.step < job->steps && strip_ready(job, &strip)) {
        strip_step(job, &strip);
        return;
    }
    bool done = strip.step == job->steps;
    message.missing = 0;
    for (int side = 0; side < SIDES; side++)
        if (!done && strip_has(job, strip.process, side) && strip.got[side][strip.step % 2] != strip.step + 1)
            message.missing |= 1u << side;
    if (done)
        memcpy(message.data, strip.field, strip.rows * sizeof strip.field[0]);
    if (!ask(done ? DONE : RECEIVE, done ? strip.rows * WIDTH : 0))
        return;
    if (message.kind == EDGE)
        take_in();
    if (message.kind == AGAIN)
        send_edge(message.peer < strip.process ? UP : DOWN, message.step);
}

int work(const struct job *the_job, uint32_t process) {
    job = the_job;
    strip.process = process;
    connect_to_coordinator();
    message.peer = process;
    ask(HELLO, 0); /* the answer is to go back */
    for (;;)
        go_on();
}
