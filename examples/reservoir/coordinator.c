/* The coordinator: it owns the words, moves the messages and makes every call. Each call goes the same way: it is made on a copy; the checkpoint that it asks for is stored;
   the record and the words are committed to the disk; the checkpoints that it hands out are deleted; and only then is the worker answered. Killed at any point, it goes on
   from the committed words. */
#define _POSIX_C_SOURCE 200809L

#include "reservoir.h"

#include <dirent.h>
#include <errno.h>
#include <fcntl.h>
#include <poll.h>
#include <stdio.h>
#include <stdlib.h>
#include <string.h>
#include <sys/socket.h>
#include <sys/stat.h>
#include <time.h>
#include <unistd.h>

enum { TRACE = 8000001, RECORD = 4, WAIT = 20 /* milliseconds */, NOBODY = LEMIDROSY_PROCESSES };

/* A worker as the coordinator sees it: what it asks stands until it is answered. */
struct worker {
    int socket;             /* -1: none */
    bool met;               /* it has said hello since this coordinator started */
    bool asks;              /* `request` waits for its answer */
    bool back;              /* it has to go back to its checkpoint of index `index` */
    uint32_t index;
    uint32_t at;            /* steps done, as far as is known */
    struct message request;
};

/* A message under way: what the library does not have of it is the edge. */
struct packet {
    uint32_t number, from, to, step;
    double edge[WIDTH];
};

/* What is committed: the words, and how many bytes of the trace. `next` is the copy on which a call is made. */
struct state {
    uint16_t words[LEMIDROSY_WORDS];
    uint64_t place;
};

static const struct job *job;
static struct worker workers[LEMIDROSY_PROCESSES];
static struct packet packets[LEMIDROSY_MESSAGES];
static size_t under_way;
static struct state now, next;
static uint8_t trace[TRACE];
static int trace_file, listener;
static uint16_t deleted[LEMIDROSY_DELETIONS], line[LEMIDROSY_PROCESSES];
static uint32_t failed;      /* processes whose live state is lost, and for which no recovery is made yet */
static uint32_t since_sweep; /* committed calls */
static bool full;            /* a store has failed for want of room */
static struct { double library, storing, all; uint64_t calls, deliveries, forced, basic, swept; } figures;

static double seconds(void) {
    struct timespec time;
    clock_gettime(CLOCK_MONOTONIC, &time);
    return (double)time.tv_sec + 1e-9 * (double)time.tv_nsec;
}

/* A call of the library, and how long it took. */
#define TIMED(into, call) do { double begun = seconds(); call; figures.into += seconds() - begun; } while (0)

static void stop(const char *what, const char *why) {
    fprintf(stderr, "reservoir: %s: %s\n", what, why);
    exit(2);
}

static const char *path_of(const char *name) {
    static char path[PATH];
    snprintf(path, sizeof path, "%.200s/%s", job->folder, name);
    return path;
}

/* Whether the committed words keep a checkpoint. */
static bool is_kept(uint32_t process, uint32_t index) {
    uint32_t kept[3 * LEMIDROSY_PROCESSES];
    uint64_t answer = lemidrosy_kept(now.words, LEMIDROSY_WORDS, process, kept, 3 * LEMIDROSY_PROCESSES);
    for (uint32_t k = 0; k < lemidrosy_value(answer); k++)
        if (kept[3 * k] == index)
            return true;
    return false;
}

/* Whether a file of the folder of checkpoints is one of them. */
static bool is_checkpoint(const char *name) {
    uint32_t process, index;
    char rest;
    return sscanf(name, "%u-%u%c", &process, &index, &rest) == 2 && is_kept(process, index);
}

static bool is_whole(const char *name) { return strstr(name, ".new") == NULL; }

static void remove_others(const char *path, bool (*stays)(const char *)) {
    DIR *folder = opendir(path);
    if (folder == NULL)
        stop(path, strerror(errno));
    for (struct dirent *entry; (entry = readdir(folder)) != NULL;)
        if (entry->d_name[0] != '.' && !stays(entry->d_name))
            unlinkat(dirfd(folder), entry->d_name, 0);
    closedir(folder);
}

/* Removes the checkpoints that the committed words do not keep: what a kill or a full disk has left. */
static void tidy(void) { remove_others(path_of("checkpoints"), is_checkpoint); }

/* An onlooker is told that a call is committed and its deletions are made, and has the time to look. */
static void tell(void) {
    uint32_t at[LEMIDROSY_PROCESSES];
    char seen;
    for (uint32_t p = 0; p < job->n; p++)
        at[p] = workers[p].at;
    if (job->watch >= 0 && (send(job->watch, at, sizeof at, MSG_NOSIGNAL) < 0 || recv(job->watch, &seen, 1, 0) != 1))
        exit(1);
}

/* Appends the record of the call to the trace, then stores the words. If that fails the trace is as before, and so are the words unless the failure came last of all:
   what stands on the disk decides. */
static bool commit(void) {
    static uint16_t stored[LEMIDROSY_WORDS];
    size_t many = next.place - now.place;
    bool done = pwrite(trace_file, trace + now.place, many, (off_t)now.place) == (ssize_t)many && fdatasync(trace_file) == 0;
    if (done && lemidrosy_store_file(path_of("words"), next.words) != 0)
        done = lemidrosy_load_file(path_of("words"), stored) == 0 && memcmp(stored, next.words, sizeof stored) == 0;
    if (!done && ftruncate(trace_file, (off_t)now.place) != 0)
        stop("trace", strerror(errno));
    if (!done)
        return false;
    now = next;
    return true;
}

/* The worker stores its state under this index, and the coordinator waits for it. False: it is gone, or there is no room. */
static bool store(uint32_t process, uint32_t index) {
    struct message message = {.kind = STORE, .index = index};
    if (!message_put(workers[process].socket, &message) || !message_get(workers[process].socket, &message)) {
        failed |= 1u << process;
        return false;
    }
    full |= message.kind == FULL;
    return message.kind == STORED;
}

static void delete(uint64_t answer) {
    char path[PATH];
    for (uint32_t k = 0; k < lemidrosy_deletions(answer); k++) {
        strip_path(job, deleted[2 * k], deleted[2 * k + 1], path);
        if (unlink(path) != 0)
            stop(path, strerror(errno));
    }
}

/* Carries out what a call on the copy has answered; `process` stores the checkpoint of the value first, unless it is NOBODY. False: nothing has changed, and the call may
   be made again later. */
static bool carry_out(uint64_t answer, uint32_t process) {
    if (lemidrosy_refused(answer) == LEMIDROSY_TOO_MANY_UNDER_WAY)
        return false;
    if (lemidrosy_refused(answer) != 0)
        stop("a call is refused", lemidrosy_refusal_text(lemidrosy_refused(answer)));
    bool done = process == NOBODY || store(process, lemidrosy_value(answer));
    if (done)
        TIMED(storing, done = commit());
    if (!done) {
        tidy();
        return false;
    }
    delete(answer);
    figures.calls++;
    since_sweep++;
    tell();
    return true;
}

static void reply(uint32_t process, struct message *message) {
    workers[process].asks = false;
    if (!message_put(workers[process].socket, message))
        failed |= 1u << process;
}

static void reply_kind(uint32_t process, uint32_t kind, uint32_t index) {
    struct message message = {.kind = kind, .index = index};
    reply(process, &message);
}

/* The arguments of a call, and after them those of the recorder. */
#define RECORDED(...) __VA_ARGS__, trace, sizeof trace, &next.place, 1

static bool send_message(uint32_t process) {
    const struct message *request = &workers[process].request;
    uint64_t answer;
    next = now;
    TIMED(library, answer = lemidrosy_record_send(RECORDED(next.words, LEMIDROSY_WORDS, process, request->peer)));
    if (!carry_out(answer, NOBODY))
        return false;
    struct packet *packet = &packets[under_way++];
    *packet = (struct packet){.number = lemidrosy_value(answer), .from = process, .to = request->peer, .step = request->step};
    memcpy(packet->edge, request->data, sizeof packet->edge);
    reply_kind(process, GO, 0);
    return true;
}

static bool take_checkpoint(uint32_t process) {
    uint64_t answer;
    next = now;
    TIMED(library, answer = lemidrosy_record_checkpoint(RECORDED(next.words, LEMIDROSY_WORDS, process, deleted, LEMIDROSY_DELETIONS)));
    if (carry_out(answer, process))
        figures.basic++;
    if (failed >> process & 1)
        return true;
    reply_kind(process, GO, 0); /* without room it goes on without a checkpoint */
    return true;
}

static void forget(size_t packet) {
    memmove(packets + packet, packets + packet + 1, (under_way - packet - 1) * sizeof packets[0]);
    under_way--;
}

static bool lose(size_t packet) {
    uint64_t answer;
    next = now;
    TIMED(library, answer = lemidrosy_record_lose(RECORDED(next.words, LEMIDROSY_WORDS, packets[packet].number)));
    if (!carry_out(answer, NOBODY))
        return false;
    forget(packet);
    return true;
}

static bool deliver(size_t packet) {
    struct packet *taken = &packets[packet];
    uint64_t answer;
    next = now;
    TIMED(library, answer = lemidrosy_record_deliver(RECORDED(next.words, LEMIDROSY_WORDS, taken->number, deleted, LEMIDROSY_DELETIONS)));
    if (!carry_out(answer, lemidrosy_has_value(answer) ? taken->to : NOBODY))
        return false;
    figures.deliveries++;
    figures.forced += lemidrosy_has_value(answer);
    struct message message = {.kind = EDGE, .peer = taken->from, .step = taken->step, .many = WIDTH};
    memcpy(message.data, taken->edge, sizeof taken->edge);
    reply(taken->to, &message);
    forget(packet);
    return true;
}

static bool is_under_way(uint32_t from, uint32_t to, uint32_t step) {
    for (size_t k = 0; k < under_way; k++)
        if (packets[k].from == from && packets[k].to == to && packets[k].step == step)
            return true;
    return false;
}

/* A neighbour waits for an edge that this worker has sent and that is not under way: its receipt was undone, or it was lost. This worker is asked for it again. */
static bool ask_again(uint32_t process) {
    for (int side = 0; side < SIDES; side++) {
        if (!strip_has(job, process, side))
            continue;
        uint32_t other = side == UP ? process - 1 : process + 1;
        const struct worker *worker = &workers[other];
        bool waits = worker->asks && !worker->back && worker->request.kind == RECEIVE && worker->request.missing >> (side == UP ? DOWN : UP) & 1;
        if (waits && worker->at <= workers[process].at && !is_under_way(process, other, worker->at)) {
            struct message message = {.kind = AGAIN, .peer = other, .step = worker->at};
            reply(process, &message);
            return true;
        }
    }
    return false;
}

static bool receive(uint32_t process) {
    for (size_t k = 0; k < under_way; k++)
        if (packets[k].to == process)
            return job->loss != 0 && (uint32_t)rand() % job->loss == 0 ? lose(k) : deliver(k);
    return ask_again(process);
}

/* A worker goes back, and the coordinator waits for it: another recovery could take the file away. */
static bool send_back(uint32_t process) {
    struct worker *worker = &workers[process];
    struct message message = {.kind = BACK, .index = worker->index};
    worker->asks = worker->back = false;
    if (!message_put(worker->socket, &message) || !message_get(worker->socket, &message))
        failed |= 1u << process;
    return true;
}

/* Answers a worker if it can; true if something was done. */
static bool serve(uint32_t process) {
    struct worker *worker = &workers[process];
    if (!worker->asks || failed >> process & 1)
        return false;
    if (worker->back)
        return send_back(process);
    switch (worker->request.kind) {
    case SEND: return send_message(process);
    case CHECKPOINT: return take_checkpoint(process);
    default: return receive(process);
    }
}

/* The packets that are under way by the committed words. */
static void keep_packets(void) {
    uint32_t messages[LEMIDROSY_THREES];
    uint64_t answer = lemidrosy_messages(now.words, LEMIDROSY_WORDS, messages, LEMIDROSY_THREES);
    for (size_t k = under_way; k-- > 0;) {
        bool found = false;
        for (uint32_t m = 0; m < lemidrosy_value(answer); m++)
            found |= messages[3 * m] == packets[k].number;
        if (!found)
            forget(k);
    }
}

/* Makes the recovery for a failed set; the empty set is a sweep. Without room for the words it waits: nothing can go on before. */
static void recover(uint32_t set) {
    uint16_t vector[LEMIDROSY_PROCESSES], own[LEMIDROSY_PROCESSES];
    uint64_t answer;
    tidy();
    for (uint32_t p = 0; p < job->n; p++) {
        lemidrosy_vector(now.words, LEMIDROSY_WORDS, p, vector, LEMIDROSY_PROCESSES);
        own[p] = vector[p];
    }
    for (;;) {
        next = now;
        TIMED(library, answer = lemidrosy_record_recover(RECORDED(next.words, LEMIDROSY_WORDS, set, deleted, LEMIDROSY_DELETIONS, line, LEMIDROSY_PROCESSES)));
        if (carry_out(answer, NOBODY))
            break;
        poll(NULL, 0, WAIT);
    }
    since_sweep = 0;
    for (uint32_t p = 0; p < job->n; p++)
        if (line[p] < own[p])
            workers[p].back = true, workers[p].index = line[p], workers[p].at = 0;
    keep_packets();
    if (set == 0)
        figures.swept += lemidrosy_deletions(answer);
}

static void meet(int socket) {
    struct message message;
    if (!message_get(socket, &message) || message.kind != HELLO || message.peer >= job->n) {
        close(socket);
        return;
    }
    struct worker *worker = &workers[message.peer];
    if (worker->socket >= 0)
        close(worker->socket);
    if (worker->socket >= 0 || !worker->back)
        failed |= 1u << message.peer; /* its forerunner is gone */
    worker->socket = socket;
    worker->met = worker->asks = true;
    worker->request = message;
}

/* Waits for what the workers ask, and takes down who is gone. */
static void listen_to_all(int milliseconds) {
    struct pollfd polled[LEMIDROSY_PROCESSES + 1] = {{.fd = listener, .events = POLLIN}};
    for (uint32_t p = 0; p < job->n; p++)
        polled[p + 1] = (struct pollfd){.fd = workers[p].socket, .events = POLLIN};
    if (poll(polled, job->n + 1, milliseconds) <= 0)
        return;
    for (uint32_t p = 0; p < job->n; p++) {
        struct worker *worker = &workers[p];
        if (polled[p + 1].revents == 0)
            continue;
        worker->asks = message_get(worker->socket, &worker->request);
        if (worker->asks && !worker->back)
            worker->at = worker->request.at;
        if (!worker->asks)
            failed |= 1u << p;
    }
    if (polled[0].revents != 0)
        meet(accept(listener, NULL, NULL));
}

/* A new run: every worker's first state is stored as checkpoint 0, then the words. */
static void begin(void) {
    uint32_t counts[LEMIDROSY_PROCESSES];
    static struct strip strip;
    for (uint32_t p = 0; p < job->n; p++) {
        counts[p] = 1;
        strip_begin(job, p, &strip);
        int status = strip_store(job, &strip, 0);
        if (status != 0)
            stop("the first checkpoints", strerror(-status));
    }
    uint64_t answer = lemidrosy_record_start(RECORDED(next.words, LEMIDROSY_WORDS, job->n, counts, job->n));
    if (lemidrosy_refused(answer) != 0 || !commit())
        stop("a new run", lemidrosy_refusal_text(lemidrosy_refused(answer)));
    for (uint32_t p = 0; p < job->n; p++)
        workers[p].back = true;
}

/* The committed words and their trace. The trace may have one record more, that of a call whose words were not committed: it goes. (A record that changes nothing, as of a
   second failure before anything was done, stays: the trace leads to the same words.) */
static void resume(void) {
    uint32_t counts[LEMIDROSY_PROCESSES];
    ssize_t many = read(trace_file, trace, TRACE);
    uint64_t last = many < 1 ? 0 : 1 + (uint64_t)(many - 1) / RECORD * RECORD;
    for (uint32_t p = 0; p < job->n; p++)
        counts[p] = 1;
    lemidrosy_start(next.words, LEMIDROSY_WORDS, job->n, counts, job->n);
    for (next.place = 1; next.place <= last; next.place += RECORD) {
        if (next.place + RECORD >= last && memcmp(next.words, now.words, sizeof now.words) == 0)
            now.place = next.place;
        if (next.place < last)
            trace_apply(next.words, trace + next.place, deleted, line);
    }
    if (now.place == 0)
        stop("trace", "it does not lead to the words");
    if (ftruncate(trace_file, (off_t)now.place) != 0)
        stop("trace", strerror(errno));
}

/* Waits until every worker has said hello. The workers of an earlier coordinator are then gone, and nobody writes files but those that this one asks. */
static void meet_all(void) {
    bool all = false;
    while (!all) {
        listen_to_all(WAIT);
        if (getppid() != job->starter)
            exit(1);
        all = true;
        for (uint32_t p = 0; p < job->n; p++)
            all &= workers[p].met;
    }
    tidy();
    tell();
}

/* After a restart every live state is lost. The edges of the messages under way are lost with the old coordinator: their senders have them. */
static void recover_all(void) {
    recover((1u << job->n) - 1);
    uint32_t messages[LEMIDROSY_THREES];
    uint64_t answer = lemidrosy_messages(now.words, LEMIDROSY_WORDS, messages, LEMIDROSY_THREES);
    for (uint32_t m = 0; m < lemidrosy_value(answer); m++) {
        packets[under_way++] = (struct packet){.number = messages[3 * m]};
        while (!lose(0))
            poll(NULL, 0, WAIT);
    }
    failed = 0;
}

static void recover_failed(void) {
    uint32_t set = failed;
    failed = 0;
    for (uint32_t p = 0; p < job->n; p++)
        if (set >> p & 1 && workers[p].socket >= 0 && !(workers[p].asks && workers[p].request.kind == HELLO)) {
            close(workers[p].socket);
            workers[p].socket = -1;
            workers[p].asks = false;
        }
    recover(set);
}

/* All are done: the field is put together and stored, and everyone may go. */
static bool finish(void) {
    static double field[HEIGHT * WIDTH];
    size_t many = 0;
    for (uint32_t p = 0; p < job->n; p++)
        if (failed != 0 || !workers[p].asks || workers[p].back || workers[p].request.kind != DONE)
            return false;
    for (uint32_t p = 0; p < job->n; p++) {
        memcpy(field + many, workers[p].request.data, workers[p].request.many * sizeof(double));
        many += workers[p].request.many;
    }
    if (file_store(path_of("field"), field, sizeof field) != 0)
        return false;
    for (uint32_t p = 0; p < job->n; p++)
        reply_kind(p, QUIT, 0);
    return true;
}

int coordinate(const struct job *the_job) {
    job = the_job;
    figures.all = -seconds();
    srand((unsigned)getpid());
    for (uint32_t p = 0; p < job->n; p++)
        workers[p].socket = -1;
    mkdir(path_of("checkpoints"), 0777);
    if (access(path_of("field"), F_OK) == 0)
        return 0;
    remove_others(job->folder, is_whole);
    trace_file = open(path_of("trace"), O_RDWR | O_CREAT | O_CLOEXEC, 0666);
    int status = lemidrosy_load_file(path_of("words"), now.words);
    if (trace_file < 0 || (status != 0 && status != -ENOENT))
        stop("words", status > 0 ? lemidrosy_refusal_text((unsigned)status) : strerror(-status));
    if (status == 0)
        resume();
    else
        begin();
    if ((listener = socket_open(job, true)) < 0)
        stop("socket", strerror(errno));
    meet_all();
    if (status == 0)
        recover_all();
    for (bool busy = false; !finish(); ) {
        listen_to_all(busy ? 0 : WAIT);
        if (getppid() != job->starter)
            return 1;
        if (failed != 0)
            recover_failed();
        busy = false;
        for (uint32_t p = 0; p < job->n; p++)
            busy |= serve(p);
        if ((job->sweep != 0 && since_sweep >= job->sweep) || (full && since_sweep > 0))
            recover(0);
        full = false;
    }
    figures.all += seconds();
    printf("calls %ju, deliveries %ju, forced %ju, basic %ju, swept %ju, seconds %.3f, in the library %.4f, storing words %.3f\n", (uintmax_t)figures.calls,
        (uintmax_t)figures.deliveries, (uintmax_t)figures.forced, (uintmax_t)figures.basic, (uintmax_t)figures.swept, figures.all, figures.library, figures.storing);
    return 0;
}
