/* start: runs the job, and starts again whoever ends before it is done.

       reservoir FOLDER N STEPS SPACING    in the folder, with its field in FOLDER/field; started again on the same folder, it goes on
       reservoir alone STEPS               the same field by one process without a run-time, on standard output */
#define _POSIX_C_SOURCE 200809L

#include "reservoir.h"

#include <stdio.h>
#include <stdlib.h>
#include <string.h>
#include <sys/wait.h>
#include <unistd.h>

static int alone(uint32_t steps) {
    static struct strip strip;
    struct job job = {.n = 1, .steps = steps};
    strip_begin(&job, 0, &strip);
    while (strip.step < steps)
        strip_step(&job, &strip);
    return fwrite(strip.field, sizeof strip.field, 1, stdout) == 1 ? 0 : 1;
}

/* Process n is the coordinator. */
static pid_t start(const struct job *job, uint32_t process) {
    fflush(stdout);
    pid_t child = fork();
    if (child == 0)
        exit(process == job->n ? coordinate(job) : work(job, process));
    return child;
}

int main(int argc, char **argv) {
    if (argc == 3 && strcmp(argv[1], "alone") == 0)
        return alone((uint32_t)atoi(argv[2]));
    if (argc != 5 || atoi(argv[2]) < 1 || atoi(argv[2]) > LEMIDROSY_PROCESSES || atoi(argv[4]) < 1) {
        fprintf(stderr, "usage: reservoir FOLDER N STEPS SPACING\n       reservoir alone STEPS\n");
        return 1;
    }
    struct job job = {.folder = argv[1], .n = (uint32_t)atoi(argv[2]), .steps = (uint32_t)atoi(argv[3]), .spacing = (uint32_t)atoi(argv[4]), .sweep = 1000, .starter = getpid(), .watch = -1};
    pid_t children[LEMIDROSY_PROCESSES + 1];
    for (uint32_t k = 0; k <= job.n; k++)
        children[k] = start(&job, k);
    for (;;) {
        int status;
        pid_t ended = wait(&status);
        bool failed = WIFEXITED(status) && WEXITSTATUS(status) == 2;
        if (ended < 0 || failed || (ended == children[job.n] && WIFEXITED(status) && WEXITSTATUS(status) == 0))
            return failed ? 2 : 0;
        for (uint32_t k = 0; k <= job.n; k++)
            if (children[k] == ended && !(WIFEXITED(status) && WEXITSTATUS(status) == 0))
                children[k] = start(&job, k);
    }
}
