/* Messages over Unix sockets that keep the messages apart: one write is one read. */
#define _POSIX_C_SOURCE 200809L

#include "reservoir.h"

#include <errno.h>
#include <stddef.h>
#include <stdio.h>
#include <string.h>
#include <sys/socket.h>
#include <sys/un.h>
#include <unistd.h>

bool message_put(int socket, const struct message *message) {
    size_t many = offsetof(struct message, data) + message->many * sizeof(double);
    ssize_t done;
    do
        done = send(socket, message, many, MSG_NOSIGNAL);
    while (done < 0 && errno == EINTR);
    return done == (ssize_t)many;
}

bool message_get(int socket, struct message *message) {
    ssize_t done;
    do
        done = recv(socket, message, sizeof *message, 0);
    while (done < 0 && errno == EINTR);
    return done >= (ssize_t)offsetof(struct message, data) && (size_t)done == offsetof(struct message, data) + message->many * sizeof(double);
}

int socket_open(const struct job *job, bool listening) {
    struct sockaddr_un name = {.sun_family = AF_UNIX};
    snprintf(name.sun_path, sizeof name.sun_path, "%.90s/socket", job->folder);
    int file = socket(AF_UNIX, SOCK_SEQPACKET, 0);
    if (file < 0)
        return -1;
    if (listening)
        unlink(name.sun_path);
    bool open = listening ? bind(file, (struct sockaddr *)&name, sizeof name) == 0 && listen(file, 2 * LEMIDROSY_PROCESSES) == 0
                          : connect(file, (struct sockaddr *)&name, sizeof name) == 0;
    if (open)
        return file;
    close(file);
    return -1;
}
