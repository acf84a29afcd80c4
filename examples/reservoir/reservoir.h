/* A reservoir simulation in n strips, one process each, that goes on from a recovery line when processes are killed. README.md has a picture of the parts. */
#ifndef RESERVOIR_H
#define RESERVOIR_H

#include "lemidrosy.h"

#include <sys/types.h>

enum { WIDTH = 32, HEIGHT = 48 }; /* the cells of the reservoir */
enum { UP, DOWN, SIDES };         /* the neighbours of a strip: process - 1 and process + 1 */
enum { PATH = 256 };              /* room for the name of a file */

struct job {
    const char *folder;            /* where words, trace, field and checkpoints stand */
    uint32_t n, steps;             /* how many processes and steps */
    uint32_t spacing;              /* a worker takes a checkpoint after that many sends and receipts of its own */
    uint32_t loss, sweep;          /* one message of that many is lost, and a sweep comes after that many calls; 0: never */
    pid_t starter;                 /* who started everyone: nobody outlives it */
    int watch;                     /* a socket to whoever looks on after each committed call, or -1 */
};

/* All that a worker is. A checkpoint is this and nothing else. */
struct strip {
    uint32_t process, index;       /* whose, and which checkpoint */
    uint32_t rows;
    uint32_t step;                 /* steps done */
    uint32_t events;               /* sends and receipts since the last checkpoint that it asked for */
    uint32_t sent[SIDES];          /* how many edges: that of step s is number s + 1 */
    uint32_t got[SIDES][2];        /* the numbers of the received edges; step s goes to slot s % 2, since a neighbour is at most one step ahead */
    double edge[SIDES][2][WIDTH];  /* the received edges */
    double before[SIDES][WIDTH];   /* its own edges of the step before, for a neighbour that asks again */
    double field[HEIGHT][WIDTH];   /* the pressures; the first `rows` are in use */
};

/* job.c */
void strip_begin(const struct job *job, uint32_t process, struct strip *strip);
bool strip_has(const struct job *job, uint32_t process, int side); /* whether there is a neighbour */
bool strip_ready(const struct job *job, const struct strip *strip); /* whether the edges for the next step are there */
void strip_step(const struct job *job, struct strip *strip);
const double *strip_edge(const struct strip *strip, int side, uint32_t step); /* an own edge; NULL if it is no longer kept */

/* files.c. They answer 0, or below 0 the system's error. */
int file_store(const char *path, const void *bytes, size_t many); /* whole or not at all: data, fsync, rename, fsync of the folder */
int strip_store(const struct job *job, struct strip *strip, uint32_t index);
int strip_load(const struct job *job, uint32_t process, uint32_t index, struct strip *strip); /* -EBADMSG: the file is torn */
void strip_path(const struct job *job, uint32_t process, uint32_t index, char path[PATH]);

/* Messages between a worker and the coordinator. A worker asks and waits for the answer. A STORE comes before the answer and is answered by STORED or FULL; a BACK comes in
   its place and is answered by LOADED. */
enum { HELLO, SEND, CHECKPOINT, RECEIVE, DONE, STORED, FULL, LOADED, /* to the coordinator */
       GO, EDGE, AGAIN, STORE, BACK, QUIT };                         /* to a worker */

struct message {
    uint32_t kind;
    uint32_t peer;    /* HELLO: who it is. SEND, AGAIN: to whom. EDGE: from whom */
    uint32_t step;    /* SEND, EDGE, AGAIN: the step of the edge */
    uint32_t index;   /* STORE, BACK: of the checkpoint */
    uint32_t at;      /* steps done by the worker */
    uint32_t missing; /* RECEIVE: the sides whose edge of step `at` it has not got */
    uint32_t many;    /* numbers in data */
    double data[HEIGHT * WIDTH];
};

/* socket.c. False: the other end is gone. */
bool message_put(int socket, const struct message *message);
bool message_get(int socket, struct message *message);
int socket_open(const struct job *job, bool listening); /* -1: not there yet */

/* trace.c: makes the call of a record, four bytes. The answer is the call's. */
uint64_t trace_apply(uint16_t *words, const uint8_t *record, uint16_t *deleted, uint16_t *line);

/* worker.c, coordinator.c: they return when the job is done. */
int work(const struct job *job, uint32_t process);
int coordinate(const struct job *job);

#endif
