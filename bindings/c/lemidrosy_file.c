/* A state in a file. The bytes are made and judged by lemidrosy_save and lemidrosy_load, which are proved; what stands here is how they reach a disk, and is not.

   A crash or a full disk in the middle of a store leaves the old file: the bytes go to a new file in the same folder, that file reaches the disk before it gets the
   name, and the folder after it. */
#define _POSIX_C_SOURCE 200809L

#include "lemidrosy.h"

#include <errno.h>
#include <fcntl.h>
#include <stdio.h>
#include <stdlib.h>
#include <string.h>
#include <sys/stat.h>
#include <unistd.h>

/* What a new file's name has after the name that it is to get, at most. */
enum { BEHIND = 48, ATTEMPTS = 1000 };

static int write_all(int file, const uint8_t *bytes, size_t many) {
    while (many > 0) {
        ssize_t done = write(file, bytes, many);
        if (done < 0) {
            if (errno == EINTR)
                continue;
            return -errno;
        }
        bytes += done;
        many -= (size_t)done;
    }
    return 0;
}

static int sync_file(int file) {
    while (fsync(file) != 0)
        if (errno != EINTR)
            return -errno;
    return 0;
}

/* A new file beside the one at the path, under a name that no other store has. Its name goes to `name`. */
static int open_new(const char *path, char *name, size_t room) {
    for (int attempt = 0; attempt < ATTEMPTS; attempt++) {
        snprintf(name, room, "%s.%ld-%d.new", path, (long)getpid(), attempt);
        int file = open(name, O_WRONLY | O_CREAT | O_EXCL | O_CLOEXEC, 0666);
        if (file >= 0 || errno != EEXIST)
            return file >= 0 ? file : -errno;
    }
    return -EEXIST;
}

/* Who may read and write the old file, if there is one, may read and write the new one. */
static int keep_mode(const char *path, int file) {
    struct stat old;
    if (stat(path, &old) != 0)
        return errno == ENOENT ? 0 : -errno;
    return fchmod(file, old.st_mode & 07777) == 0 ? 0 : -errno;
}

static int fill(const char *path, int file, const uint8_t *bytes, size_t many) {
    int status = keep_mode(path, file);
    if (status == 0)
        status = write_all(file, bytes, many);
    if (status == 0)
        status = sync_file(file);
    if (close(file) != 0 && status == 0)
        status = -errno;
    return status;
}

/* The name in the folder reaches the disk too. A file system that cannot do that for a folder says EINVAL. */
static int sync_folder(const char *path, char *folder) {
    strcpy(folder, path);
    char *slash = strrchr(folder, '/');
    if (slash == NULL)
        strcpy(folder, ".");
    else
        slash[slash == folder] = '\0';
    int file = open(folder, O_RDONLY | O_DIRECTORY | O_CLOEXEC);
    if (file < 0)
        return -errno;
    int status = sync_file(file);
    close(file);
    return status == -EINVAL ? 0 : status;
}

int lemidrosy_store_file(const char *path, const uint16_t *words) {
    uint8_t bytes[LEMIDROSY_SAVED];
    uint64_t answer = lemidrosy_save(words, LEMIDROSY_WORDS, bytes, sizeof bytes);
    if (lemidrosy_refused(answer) != 0)
        return (int)lemidrosy_refused(answer);
    size_t room = strlen(path) + BEHIND;
    char *name = malloc(room);
    if (name == NULL)
        return -ENOMEM;
    int file = open_new(path, name, room);
    int status = file < 0 ? file : fill(path, file, bytes, lemidrosy_value(answer));
    if (status == 0 && rename(name, path) != 0)
        status = -errno;
    if (status != 0 && file >= 0)
        unlink(name);
    if (status == 0)
        status = sync_folder(path, name);
    free(name);
    return status;
}

int lemidrosy_load_file(const char *path, uint16_t *words) {
    /* One byte more than a saved state has: a longer file is refused. */
    uint8_t bytes[LEMIDROSY_SAVED + 1];
    size_t many = 0;
    int file = open(path, O_RDONLY | O_CLOEXEC);
    if (file < 0)
        return -errno;
    int status = 0;
    while (many < sizeof bytes) {
        ssize_t more = read(file, bytes + many, sizeof bytes - many);
        if (more == 0)
            break;
        if (more > 0)
            many += (size_t)more;
        else if (errno != EINTR) {
            status = -errno;
            break;
        }
    }
    close(file);
    return status != 0 ? status : (int)lemidrosy_refused(lemidrosy_load(bytes, many, words, LEMIDROSY_WORDS));
}
