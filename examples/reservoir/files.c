/* Checkpoints in files. A file has its name only when it is whole and on the disk, and ends with a sum over its bytes, so that a torn one is not taken for a checkpoint. */
#define _POSIX_C_SOURCE 200809L

#include "reservoir.h"

#include <errno.h>
#include <fcntl.h>
#include <stddef.h>
#include <stdio.h>
#include <string.h>
#include <unistd.h>

enum { SUM = sizeof(uint64_t) };

static int write_all(int file, const char *bytes, size_t many) {
    while (many > 0) {
        ssize_t done = write(file, bytes, many);
        if (done < 0 && errno != EINTR)
            return -errno;
        if (done > 0)
            bytes += done, many -= (size_t)done;
    }
    return 0;
}

static int sync_folder(const char *path) {
    char folder[PATH];
    snprintf(folder, sizeof folder, "%s", path);
    *strrchr(folder, '/') = '\0';
    int file = open(folder, O_RDONLY | O_DIRECTORY | O_CLOEXEC);
    if (file < 0)
        return -errno;
    int status = fsync(file) == 0 ? 0 : -errno;
    close(file);
    return status;
}

int file_store(const char *path, const void *bytes, size_t many) {
    char name[PATH];
    snprintf(name, sizeof name, "%.240s.new", path);
    int file = open(name, O_WRONLY | O_CREAT | O_TRUNC | O_CLOEXEC, 0666);
    if (file < 0)
        return -errno;
    int status = write_all(file, bytes, many);
    if (status == 0 && fsync(file) != 0)
        status = -errno;
    if (close(file) != 0 && status == 0)
        status = -errno;
    if (status == 0 && rename(name, path) != 0)
        status = -errno;
    if (status != 0) {
        unlink(name);
        return status;
    }
    return sync_folder(path);
}

void strip_path(const struct job *job, uint32_t process, uint32_t index, char path[PATH]) {
    snprintf(path, PATH, "%.200s/checkpoints/%u-%u", job->folder, process, index);
}

/* FNV-1a. */
static uint64_t sum_of(const char *bytes, size_t many) {
    uint64_t sum = 14695981039346656037u;
    for (size_t k = 0; k < many; k++)
        sum = (sum ^ (unsigned char)bytes[k]) * 1099511628211u;
    return sum;
}

static size_t size_of(const struct strip *strip) { return offsetof(struct strip, field) + strip->rows * sizeof strip->field[0]; }

int strip_store(const struct job *job, struct strip *strip, uint32_t index) {
    static char bytes[sizeof(struct strip) + SUM];
    char path[PATH];
    size_t many = size_of(strip);
    strip->index = index;
    memcpy(bytes, strip, many);
    uint64_t sum = sum_of(bytes, many);
    memcpy(bytes + many, &sum, SUM);
    strip_path(job, strip->process, index, path);
    return file_store(path, bytes, many + SUM);
}

int strip_load(const struct job *job, uint32_t process, uint32_t index, struct strip *strip) {
    static char bytes[sizeof(struct strip) + SUM];
    char path[PATH];
    strip_path(job, process, index, path);
    int file = open(path, O_RDONLY | O_CLOEXEC);
    if (file < 0)
        return -errno;
    size_t many = 0;
    ssize_t more;
    while (many < sizeof bytes && (more = read(file, bytes + many, sizeof bytes - many)) > 0)
        many += (size_t)more;
    close(file);
    uint64_t sum;
    memset(strip, 0, sizeof *strip);
    if (many < offsetof(struct strip, field) + SUM)
        return -EBADMSG;
    memcpy(strip, bytes, many - SUM);
    memcpy(&sum, bytes + many - SUM, SUM);
    if (strip->rows > HEIGHT || many != size_of(strip) + SUM || sum != sum_of(bytes, many - SUM) || strip->process != process || strip->index != index)
        return -EBADMSG;
    return 0;
}
