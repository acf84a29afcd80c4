/* breaker: runs the job again and again, kills its processes at random moments, and checks after every committed call that nothing is wrong.

       breaker FOLDER KILLS SEED [N..]    until that many kills, each run with one of these numbers of processes, or with any from 2 to 16; with 0 kills, one run for each

   It starts the processes as start.c does and looks on through a socket to each. FOLDER/recoveries gets a line for each recovery: processes, spacing, how many failed, how
   many went back, how many steps were lost by all of them and by one at most, and how many would be with coordinated checkpoints as often as a worker takes one, with
   coordinated checkpoints at each step, and without any. */
#define _GNU_SOURCE /* prlimit, by which the room on a disk goes while a process runs */

#include "reservoir.h"

#include <dirent.h>
#include <errno.h>
#include <fcntl.h>
#include <poll.h>
#include <signal.h>
#include <stdarg.h>
#include <stdio.h>
#include <stdlib.h>
#include <string.h>
#include <sys/resource.h>
#include <sys/socket.h>
#include <sys/stat.h>
#include <sys/wait.h>
#include <time.h>
#include <unistd.h>

enum { STEPS = 100, JUDGED = 4096, STILL = 60 /* seconds */, FILES = LEMIDROSY_PROCESSES * (LEMIDROSY_PROCESSES + 2), SMALL = 600 /* bytes of a file on a full disk */ };

struct file { uint32_t process, index; ino_t inode; struct timespec time; };
struct child { pid_t id; int watch; };

/* One run. */
static char folder[PATH];
static struct job job;
static struct child children[LEMIDROSY_PROCESSES + 1]; /* child n is the coordinator */
static uint16_t mine[LEMIDROSY_WORDS], deleted[LEMIDROSY_DELETIONS], line[LEMIDROSY_PROCESSES];
static uint64_t place;                                                  /* bytes of the trace that `mine` has taken in */
static struct file files[FILES];                                        /* what was on the disk at the last check */
static size_t file_count;
static uint64_t stored, removed;                                        /* files that came and went */
static bool to_load[LEMIDROSY_PROCESSES];                               /* it has to go back to the checkpoint `expected` before it does anything */
static uint32_t expected[LEMIDROSY_PROCESSES], progress[LEMIDROSY_PROCESSES];
static uint8_t judged[1 + 4 * JUDGED];
static size_t judged_bytes;
static bool judging;
static double last_check;
/* All runs. */
static struct {
    uint64_t runs, kills, processes, coordinators, all, during_checkpoint, during_recovery, with_messages, torn, full, checks, recoveries, rolled_back, sweeps, swept, judged;
    uint64_t basic, forced, lost_messages, most_kept, steps_lost, farthest, steps_coordinated, steps_each, steps_beginning, steps_done;
} sum;
static FILE *recoveries;
static uint64_t seed;
static double field[HEIGHT * WIDTH];

static double seconds(void) {
    struct timespec time;
    clock_gettime(CLOCK_MONOTONIC, &time);
    return (double)time.tv_sec + 1e-9 * (double)time.tv_nsec;
}

static uint32_t below(uint32_t bound) {
    seed = seed * 6364136223846793005u + 1442695040888963407u;
    return (uint32_t)(seed >> 33) % bound;
}

static void end_all(void) {
    for (uint32_t k = 0; k <= job.n; k++)
        if (children[k].id > 0)
            kill(children[k].id, SIGKILL);
}

static void fail(const char *form, ...) {
    va_list values;
    va_start(values, form);
    printf("failed, n %u, spacing %u, record %ju: ", job.n, job.spacing, (uintmax_t)(place / 4));
    vprintf(form, values);
    printf("\n");
    end_all();
    exit(1);
}

/* Where a child breaks by itself: in the middle of a store or of a deletion. These stand in for the functions of the system (--wrap). */
static uint32_t one_in; /* 0: never */
static int own_watch = -1;
int __real_fsync(int), __real_fdatasync(int), __real_rename(const char *, const char *), __real_unlink(const char *);
int __wrap_fsync(int), __wrap_fdatasync(int), __wrap_rename(const char *, const char *), __wrap_unlink(const char *);

static bool breaks(void) { return one_in != 0 && below(one_in) == 0; }

static void die(char how) {
    send(own_watch, &how, 1, MSG_NOSIGNAL);
    kill(getpid(), SIGKILL);
}

int __wrap_fsync(int file) {
    struct stat status;
    if (breaks()) {
        bool torn = fstat(file, &status) == 0 && S_ISREG(status.st_mode) && ftruncate(file, (off_t)below((uint32_t)status.st_size)) == 0;
        die(torn ? 't' : 'd');
    }
    return __real_fsync(file);
}

int __wrap_fdatasync(int file) {
    if (breaks())
        die('d');
    return __real_fdatasync(file);
}

int __wrap_rename(const char *from, const char *to) {
    if (breaks())
        die('d');
    int status = __real_rename(from, to);
    if (breaks()) {
        /* A checkpoint that is not committed yet may be torn even under its name. */
        bool torn = strstr(to, "checkpoints/") != NULL && truncate(to, 100) == 0;
        die(torn ? 't' : 'd');
    }
    return status;
}

int __wrap_unlink(const char *path) {
    if (breaks() && strstr(path, "checkpoints/") != NULL)
        die('d');
    return __real_unlink(path);
}

static void start(uint32_t k) {
    int ends[2];
    fflush(NULL);
    if (socketpair(AF_UNIX, SOCK_SEQPACKET, 0, ends) != 0)
        fail("socketpair: %s", strerror(errno));
    pid_t id = fork();
    if (id == 0) {
        for (uint32_t other = 0; other <= job.n; other++)
            if (other != k && children[other].id > 0)
                close(children[other].watch);
        close(ends[0]);
        signal(SIGXFSZ, SIG_IGN);
        seed ^= (uint64_t)getpid() << 20;
        own_watch = job.watch = ends[1];
        freopen("/dev/null", "w", stdout);
        exit(k == job.n ? coordinate(&job) : work(&job, k));
    }
    close(ends[1]);
    children[k] = (struct child){.id = id, .watch = ends[0]};
}

/* What a worker says: that it has loaded a checkpoint, or that it breaks. */
static void hear(uint32_t k) {
    uint32_t said[LEMIDROSY_PROCESSES];
    ssize_t many;
    while ((many = recv(children[k].watch, said, sizeof said, MSG_DONTWAIT)) > 0) {
        if (many == 1) {
            sum.kills++, sum.processes++;
            sum.during_checkpoint += k < job.n;
            sum.coordinators += k == job.n;
            sum.torn += *(char *)said == 't';
        } else if (k < job.n) {
            if (!to_load[k] || said[1] != expected[k])
                fail("%u goes back to %u, and the line says %d", k, said[1], to_load[k] ? (int)expected[k] : -1);
            to_load[k] = false;
        }
    }
}

/* The steps that coordinated checkpoints every so many steps would lose: every process goes back to the last one that all have reached. */
static uint64_t lost_if_coordinated(uint32_t every) {
    uint32_t least = progress[0];
    uint64_t lost = 0;
    for (uint32_t p = 1; p < job.n; p++)
        least = progress[p] < least ? progress[p] : least;
    for (uint32_t p = 0; p < job.n; p++)
        lost += progress[p] - least / every * every;
    return lost;
}

static uint32_t members(uint32_t set) {
    uint32_t many = 0;
    for (; set != 0; set >>= 1)
        many += set & 1;
    return many;
}

/* A recovery is in the trace: who goes back where, and what that costs. */
static void expect_line(uint32_t set) {
    static struct strip strip;
    uint16_t vector[LEMIDROSY_PROCESSES];
    /* A step has up to two sends and two receipts. */
    uint64_t lost = 0, beginning = 0, coordinated = lost_if_coordinated((job.spacing + 3) / 4), each = lost_if_coordinated(1);
    uint32_t rolled = 0, farthest = 0;
    lemidrosy_line(mine, LEMIDROSY_WORDS, set, line, LEMIDROSY_PROCESSES);
    for (uint32_t p = 0; p < job.n; p++) {
        lemidrosy_vector(mine, LEMIDROSY_WORDS, p, vector, LEMIDROSY_PROCESSES);
        beginning += progress[p];
        if (line[p] == vector[p])
            continue;
        int status = strip_load(&job, p, line[p], &strip);
        if (status != 0)
            fail("the file %u-%u of the line: %s", p, line[p], strerror(-status));
        lost += progress[p] - strip.step;
        farthest = progress[p] - strip.step > farthest ? progress[p] - strip.step : farthest;
        progress[p] = strip.step;
        to_load[p] = true;
        expected[p] = line[p];
        rolled++;
    }
    sum.recoveries++;
    sum.rolled_back += rolled;
    sum.steps_lost += lost;
    sum.farthest = farthest > sum.farthest ? farthest : sum.farthest;
    sum.steps_coordinated += coordinated;
    sum.steps_each += each;
    sum.steps_beginning += beginning;
    fprintf(recoveries, "%u %u %u %u %ju %u %ju %ju %ju\n", job.n, job.spacing, members(set), rolled, (uintmax_t)lost, farthest, (uintmax_t)coordinated, (uintmax_t)each, (uintmax_t)beginning);
}

static uint32_t receiver_of(uint32_t number) {
    uint32_t messages[LEMIDROSY_THREES];
    uint64_t answer = lemidrosy_messages(mine, LEMIDROSY_WORDS, messages, LEMIDROSY_THREES);
    for (uint32_t m = 0; m < lemidrosy_value(answer); m++)
        if (messages[3 * m] == number)
            return messages[3 * m + 2];
    return LEMIDROSY_PROCESSES;
}

static void judge_record(const uint8_t *record) {
    if (judged_bytes + 4 > sizeof judged)
        judging = false;
    if (!judging)
        return;
    memcpy(judged + judged_bytes, record, 4);
    judged_bytes += 4;
}

/* A record of the trace is taken in. */
static void follow(const uint8_t *record) {
    uint32_t number = (uint32_t)record[0] << 24 | (uint32_t)record[1] << 16 | (uint32_t)record[2] << 8 | record[3];
    uint32_t kind = number >> 29, process = number >> 25 & 15, argument = number & 0x1ffffff;
    if (kind == 2)
        process = receiver_of(argument);
    if (kind < 3 && process < job.n && to_load[process])
        fail("%u goes on and has not gone back", process);
    if (kind == 4 && argument != 0)
        expect_line(argument);
    uint64_t answer = trace_apply(mine, record, deleted, line);
    if (lemidrosy_refused(answer) != 0)
        fail("the trace has a refused record: %s", lemidrosy_refusal_text(lemidrosy_refused(answer)));
    bool forced = kind == 2 && lemidrosy_has_value(answer);
    sum.basic += kind == 0;
    sum.forced += forced;
    sum.lost_messages += kind == 3;
    sum.sweeps += kind == 4 && argument == 0;
    sum.swept += kind == 4 && argument == 0 ? lemidrosy_deletions(answer) : 0;
    judging = judging && kind != 4;
    if (forced)
        judge_record((uint8_t[4]){(uint8_t)(process << 1), 0, 0, 0});
    judge_record(record);
    place += 4;
}

static void follow_trace(void) {
    char path[PATH];
    uint8_t record[4];
    snprintf(path, sizeof path, "%.200s/trace", folder);
    int file = open(path, O_RDONLY);
    while (pread(file, record, 4, (off_t)place) == 4)
        follow(record);
    close(file);
}

static int by_name(const void *one, const void *other) {
    const struct file *a = one, *b = other;
    return a->process != b->process ? (a->process < b->process ? -1 : 1) : a->index != b->index ? (a->index < b->index ? -1 : 1) : 0;
}

static bool same(const struct file *a, const struct file *b) {
    return by_name(a, b) == 0 && a->inode == b->inode && a->time.tv_sec == b->time.tv_sec && a->time.tv_nsec == b->time.tv_nsec;
}

/* The files on the disk, and which of them came and went since the last look. */
static void look(void) {
    static struct file before[FILES];
    size_t count = file_count, a = 0, b = 0;
    char path[PATH], rest;
    memcpy(before, files, sizeof files);
    snprintf(path, sizeof path, "%.200s/checkpoints", folder);
    DIR *listed = opendir(path);
    file_count = 0;
    for (struct dirent *entry; (entry = readdir(listed)) != NULL;) {
        struct stat status;
        struct file *file = &files[file_count];
        if (entry->d_name[0] == '.')
            continue;
        if (file_count == FILES || sscanf(entry->d_name, "%u-%u%c", &file->process, &file->index, &rest) != 2 || fstatat(dirfd(listed), entry->d_name, &status, 0) != 0)
            fail("a file that no committed state names: %s", entry->d_name);
        file->inode = status.st_ino;
        file->time = status.st_mtim;
        file_count++;
    }
    closedir(listed);
    qsort(files, file_count, sizeof files[0], by_name);
    while (a < count || b < file_count) {
        int order = a == count ? 1 : b == file_count ? -1 : by_name(&before[a], &files[b]);
        bool replaced = order == 0 && !same(&before[a], &files[b]);
        removed += order < 0 || replaced;
        stored += order > 0 || replaced;
        a += order <= 0;
        b += order >= 0;
    }
}

/* The files are those that the library keeps, at most n for each process; blocks written and deleted are the files that came and went. */
static void check_files(void) {
    uint64_t numbers[LEMIDROSY_NUMBERS];
    size_t k = 0;
    look();
    for (uint32_t p = 0; p < job.n; p++) {
        uint32_t kept[3 * LEMIDROSY_PROCESSES];
        uint32_t many = lemidrosy_value(lemidrosy_kept(mine, LEMIDROSY_WORDS, p, kept, 3 * LEMIDROSY_PROCESSES));
        for (uint32_t c = 0; c < many; c++, k++)
            if (k >= file_count || files[k].process != p || files[k].index != kept[3 * c])
                fail("%u-%u is kept, and not on the disk", p, kept[3 * c]);
        if (k < file_count && files[k].process == p)
            fail("%u-%u is on the disk, and not kept", p, files[k].index);
        if (many > job.n)
            fail("%u keeps %u checkpoints", p, many);
        sum.most_kept = many > sum.most_kept ? many : sum.most_kept;
    }
    lemidrosy_numbers(mine, LEMIDROSY_WORDS, numbers, LEMIDROSY_NUMBERS);
    if (numbers[3] != stored || numbers[4] != removed)
        fail("blocks written %ju, deleted %ju; on the disk %ju and %ju", (uintmax_t)numbers[3], (uintmax_t)numbers[4], (uintmax_t)stored, (uintmax_t)removed);
}

/* No file of a line is missing, whoever fails: one, or all. */
static void check_lines(void) {
    uint16_t vector[LEMIDROSY_PROCESSES];
    for (uint32_t f = 0; f <= job.n; f++) {
        lemidrosy_line(mine, LEMIDROSY_WORDS, f < job.n ? 1u << f : (1u << job.n) - 1, line, LEMIDROSY_PROCESSES);
        for (uint32_t p = 0; p < job.n; p++) {
            struct file member = {.process = p, .index = line[p]};
            lemidrosy_vector(mine, LEMIDROSY_WORDS, p, vector, LEMIDROSY_PROCESSES);
            if (line[p] != vector[p] && bsearch(&member, files, file_count, sizeof files[0], by_name) == NULL)
                fail("%u-%u of the line is not on the disk", p, line[p]);
        }
    }
}

static void check(const uint32_t *at) {
    static uint16_t words[LEMIDROSY_WORDS];
    char path[PATH];
    for (uint32_t p = 0; p < job.n; p++)
        hear(p);
    follow_trace();
    for (uint32_t p = 0; p < job.n; p++)
        if (!to_load[p] && at[p] != 0)
            progress[p] = at[p];
    snprintf(path, sizeof path, "%.200s/words", folder);
    if (lemidrosy_load_file(path, words) != 0 || memcmp(words, mine, sizeof words) != 0)
        fail("the trace does not lead to the committed words");
    check_files();
    check_lines();
    sum.checks++;
    last_check = seconds();
}

static void strike(uint32_t k) {
    if (children[k].id <= 0)
        return;
    kill(children[k].id, SIGKILL);
    sum.processes++;
    sum.coordinators += k == job.n;
}

/* Kills one, several or all workers, or the coordinator; or takes the room on the disk away from everyone. */
static void strike_some(void) {
    uint64_t numbers[LEMIDROSY_NUMBERS];
    uint32_t way = below(20);
    bool recovering = false;
    for (uint32_t p = 0; p < job.n; p++)
        recovering |= to_load[p];
    if (way == 0) {
        struct rlimit limit = {SMALL, RLIM_INFINITY};
        for (uint32_t k = 0; k <= job.n; k++)
            if (children[k].id > 0)
                prlimit(children[k].id, RLIMIT_FSIZE, &limit, NULL);
        sum.full++;
        return;
    }
    lemidrosy_numbers(mine, LEMIDROSY_WORDS, numbers, LEMIDROSY_NUMBERS);
    uint64_t before = sum.processes;
    sum.kills++;
    sum.during_recovery += recovering;
    sum.with_messages += numbers[2] > 0;
    if (way < 3)
        strike(job.n);
    if (way == 3)
        sum.all++;
    for (uint32_t p = 0; p < job.n; p++)
        if (way == 3 || (way > 3 && way < 7 && below(3) == 0))
            strike(p);
    if (way >= 7 || way == 2 || (way > 3 && sum.processes == before))
        strike(below(job.n)); /* nobody may have been drawn */
}

static void make_room(void) {
    struct rlimit limit = {RLIM_INFINITY, RLIM_INFINITY};
    for (uint32_t k = 0; k <= job.n; k++)
        if (children[k].id > 0)
            prlimit(children[k].id, RLIMIT_FSIZE, &limit, NULL);
}

/* Starts again who has ended; true when the coordinator has done its work. */
static bool reap(void) {
    int status;
    pid_t ended;
    while ((ended = waitpid(-1, &status, WNOHANG)) > 0)
        for (uint32_t k = 0; k <= job.n; k++) {
            if (children[k].id != ended)
                continue;
            children[k].id = 0;
            hear(k);
            close(children[k].watch);
            if (WIFEXITED(status) && WEXITSTATUS(status) == 0 && k == job.n)
                return true;
            if (WIFEXITED(status) && WEXITSTATUS(status) > 1)
                fail("process %u gives up", k);
            start(k);
        }
    return false;
}

static void begin_run(uint32_t n, uint32_t spacing, uint32_t loss, uint32_t sweep) {
    uint32_t counts[LEMIDROSY_PROCESSES];
    char command[PATH + 40];
    snprintf(command, sizeof command, "rm -rf '%.200s'", folder);
    if (system(command) != 0 || mkdir(folder, 0777) != 0)
        fail("%s: %s", folder, strerror(errno));
    job = (struct job){.folder = folder, .n = n, .steps = STEPS, .spacing = spacing, .loss = loss, .sweep = sweep, .starter = getpid(), .watch = -1};
    for (uint32_t p = 0; p < n; p++)
        counts[p] = 1, to_load[p] = true, expected[p] = progress[p] = 0;
    lemidrosy_start(mine, LEMIDROSY_WORDS, n, counts, n);
    place = judged_bytes = 1;
    judged[0] = (uint8_t)n;
    judging = true;
    file_count = stored = removed = 0;
    memset(children, 0, sizeof children);
    last_check = seconds();
    sum.runs++;
}

static void end_run(void) {
    static double got[HEIGHT * WIDTH];
    char path[PATH];
    for (uint32_t p = 0; p < job.n; p++)
        if (children[p].id > 0) {
            kill(children[p].id, SIGKILL);
            waitpid(children[p].id, NULL, 0);
            close(children[p].watch);
        }
    snprintf(path, sizeof path, "%.200s/field", folder);
    FILE *file = fopen(path, "r");
    if (file == NULL || fread(got, sizeof got, 1, file) != 1 || memcmp(got, field, sizeof field) != 0)
        fail("the field is another");
    fclose(file);
    follow_trace();
    check_files();
    uint64_t verdict = lemidrosy_judge(judged, judged_bytes);
    if (verdict != 0)
        fail("the run is not judged trackable: %ju", (uintmax_t)verdict);
    sum.judged += judged_bytes / 4;
    sum.steps_done += (uint64_t)STEPS * job.n;
}

/* One run, with a strike every so many committed calls on average, until that many kills in all. */
static void run(uint64_t kills, uint32_t calls) {
    double when = 0, room = 0;
    uint32_t countdown = calls == 0 ? 0 : 1 + below(4 * calls);
    for (uint32_t k = 0; k <= job.n; k++)
        start(k);
    while (!reap()) {
        struct pollfd polled = {.fd = children[job.n].watch, .events = POLLIN};
        double wait = when > 0 ? when - seconds() : 0.001;
        struct timespec time = {0, wait <= 0 ? 0 : (long)(1e9 * (wait < 0.001 ? wait : 0.001))};
        uint32_t at[LEMIDROSY_PROCESSES];
        if (ppoll(&polled, 1, &time, NULL) > 0) {
            ssize_t many = recv(polled.fd, at, sizeof at, MSG_DONTWAIT | MSG_PEEK);
            if (many == sizeof at) {
                recv(polled.fd, at, sizeof at, 0);
                check(at);
                send(polled.fd, "", 1, MSG_NOSIGNAL);
                if (countdown > 0 && --countdown == 0)
                    when = seconds() + 1e-6 * below(600);
            } else if (many == 1)
                hear(job.n);
        }
        if (when > 0 && seconds() >= when) {
            when = 0;
            if (sum.kills < kills) {
                strike_some();
                room = room == 0 ? seconds() + 0.002 + 1e-6 * below(20000) : room;
                countdown = below(4) == 0 ? 1 : 1 + below(2 * calls); /* at once again: during the recovery */
            } else
                one_in = 0;
        }
        if (room > 0 && seconds() >= room)
            make_room(), room = 0;
        if (seconds() - last_check > STILL)
            fail("it stands still");
    }
    end_run();
}

static void report(double begun) {
    const struct { const char *name; uint64_t value; } rows[] = {
        {"runs", sum.runs}, {"kills", sum.kills}, {"processes killed", sum.processes}, {"coordinators killed", sum.coordinators}, {"all workers at once", sum.all},
        {"during a checkpoint", sum.during_checkpoint}, {"during a recovery", sum.during_recovery}, {"with messages under way", sum.with_messages}, {"torn files", sum.torn},
        {"full disks", sum.full}, {"checked calls", sum.checks}, {"recoveries", sum.recoveries}, {"rollbacks", sum.rolled_back}, {"steps lost", sum.steps_lost},
        {"most steps lost by a process", sum.farthest}, {"steps lost if coordinated", sum.steps_coordinated}, {"steps lost if coordinated each step", sum.steps_each},
        {"steps lost from the beginning", sum.steps_beginning}, {"steps of the jobs", sum.steps_done}, {"basic checkpoints", sum.basic}, {"forced checkpoints", sum.forced},
        {"most kept by a process", sum.most_kept}, {"messages lost", sum.lost_messages}, {"sweeps", sum.sweeps}, {"freed by sweeps", sum.swept}, {"records judged", sum.judged},
        {"seconds", (uint64_t)(seconds() - begun)}};
    for (size_t k = 0; k < sizeof rows / sizeof rows[0]; k++)
        printf("%s: %ju\n", rows[k].name, (uintmax_t)rows[k].value);
}

int main(int argc, char **argv) {
    static struct strip strip;
    double begun = seconds();
    if (argc < 4) {
        fprintf(stderr, "usage: breaker FOLDER KILLS SEED [N..]\n");
        return 1;
    }
    uint64_t kills = strtoull(argv[2], NULL, 10);
    seed = strtoull(argv[3], NULL, 10);
    char path[PATH];
    uint32_t counts[LEMIDROSY_PROCESSES] = {0}, many = 0;
    for (int k = 4; k < argc && many < LEMIDROSY_PROCESSES; k++)
        counts[many++] = (uint32_t)atoi(argv[k]);
    for (uint32_t n = 2; argc == 4 && n <= LEMIDROSY_PROCESSES; n++)
        counts[many++] = n;
    snprintf(path, sizeof path, "%.200s/recoveries", argv[1]);
    snprintf(folder, sizeof folder, "%.200s/run", argv[1]);
    if ((recoveries = fopen(path, "w")) == NULL)
        return perror(path), 1;
    job = (struct job){.n = 1, .steps = STEPS};
    strip_begin(&job, 0, &strip);
    while (strip.step < STEPS)
        strip_step(&job, &strip);
    memcpy(field, strip.field, sizeof field);
    for (uint32_t k = 0; kills == 0 && k < many; k++) {
        begin_run(counts[k], 40, 0, 0);
        run(0, 0);
    }
    while (sum.kills < kills) {
        begin_run(counts[below(many)], 10 + below(91), 100, 300);
        one_in = 1500;
        run(kills, 60);
    }
    report(begun);
    return 0;
}
