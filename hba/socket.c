#include "socket.h"

#include "log.h"
#include "say.h"

#include <errno.h>
#include <stdint.h>
#include <string.h>
#include <sys/socket.h>
#include <unistd.h>

/* Appends the files of a message; one too many is closed. */
static void take_files(struct msghdr *message, struct files *files) {
    for (struct cmsghdr *it = CMSG_FIRSTHDR(message); it; it = CMSG_NXTHDR(message, it)) {
        if (it->cmsg_level != SOL_SOCKET || it->cmsg_type != SCM_RIGHTS)
            continue;
        size_t count = (it->cmsg_len - CMSG_LEN(0)) / sizeof(int);
        for (size_t i = 0; i < count; i++) {
            int file;
            memcpy(&file, CMSG_DATA(it) + i * sizeof file, sizeof file);
            if (files->count < MOST_FILES)
                files->at[files->count++] = file;
            else
                close(file);
        }
    }
}

static ssize_t receive_some(int socket, void *bytes, size_t count, struct files *files, int flags) {
    union {
        char room[CMSG_SPACE(MOST_FILES * sizeof(int))];
        struct cmsghdr aligned;
    } control;
    struct iovec part = {.iov_base = bytes, .iov_len = count};
    struct msghdr message = {.msg_iov = &part, .msg_iovlen = 1, .msg_control = control.room, .msg_controllen = sizeof control.room};
    ssize_t got = recvmsg(socket, &message, MSG_CMSG_CLOEXEC | flags);
    if (got >= 0)
        take_files(&message, files);
    return got;
}

ssize_t socket_take(int socket, void *bytes, size_t count, struct files *files) {
    return receive_some(socket, bytes, count, files, MSG_DONTWAIT);
}

/* What it means that no more bytes come, of a message of which some or none are there. */
static enum found at_end(ssize_t got, bool is_begun) {
    if (got < 0 && errno != ECONNRESET) {
        say("the guest's socket can't be read: %m");
        return FOUND_WRONG;
    }
    if (!is_begun)
        return FOUND_END;
    say("the guest's program ended in the middle of a message");
    return FOUND_WRONG;
}

enum found socket_receive(int socket, void *bytes, size_t count, struct files *files) {
    uint8_t *to = bytes;
    while (count) {
        ssize_t got = receive_some(socket, to, count, files, 0);
        if (got < 0 && errno == EINTR)
            continue;
        if (got <= 0)
            return at_end(got, to != bytes);
        to += got;
        count -= (size_t)got;
    }
    return FOUND_MESSAGE;
}

bool socket_send(int socket, const void *bytes, size_t count) {
    const uint8_t *from = bytes;
    while (count) {
        ssize_t sent = send(socket, from, count, MSG_NOSIGNAL);
        if (sent < 0 && errno == EINTR)
            continue;
        if (sent < 0 && (errno == EAGAIN || errno == EWOULDBLOCK))
            say("the guest's program takes no answers");
        if (sent <= 0) {
            log_line("a message was not sent, since the guest is gone");
            return false;
        }
        from += sent;
        count -= (size_t)sent;
    }
    return true;
}

void files_close(struct files *files) {
    for (unsigned i = 0; i < files->count; i++)
        file_close(&files->at[i]);
    files->count = 0;
}

int files_take(struct files *files, unsigned which) {
    if (which >= files->count)
        return -1;
    int file = files->at[which];
    files->at[which] = -1;
    return file;
}

void file_close(int *file) {
    if (*file >= 0)
        close(*file);
    *file = -1;
}
