#include "vfio_link.h"

#include "say.h"

#include <errno.h>
#include <inttypes.h>
#include <string.h>
#include <sys/socket.h>
#include <sys/time.h>

#define USUAL_DATA 1048576u /* what a side takes that says nothing of it */
#define PATIENCE 10         /* seconds for which the other side may take no bytes */

void link_begin(struct vfio_link *link, int socket) {
    const struct timeval patience = {.tv_sec = PATIENCE};
    setsockopt(socket, SOL_SOCKET, SO_SNDTIMEO, &patience, sizeof patience);
    link->socket = socket;
    link->most_data = USUAL_DATA;
    link->files.count = link->none.count = 0;
    link->files_until = link->begin = link->end = 0;
}

void link_end(struct vfio_link *link) {
    files_close(&link->files);
    file_close(&link->socket);
    link->begin = link->end = link->files_until = 0;
}

/* ---- receiving ---- */

/* The end of the stream, or something worse. */
static enum found at_end(const struct vfio_link *link, ssize_t got) {
    if (got < 0 && (errno == EINTR || errno == EAGAIN || errno == EWOULDBLOCK))
        return FOUND_NOTHING;
    if (got < 0 && errno != ECONNRESET) {
        say("the guest's socket can't be read: %m");
        return FOUND_WRONG;
    }
    if (link->end == link->begin)
        return FOUND_END;
    say("the guest's program ended in the middle of a message");
    return FOUND_WRONG;
}

/* Receives what is there. A receive ends behind a part that has files. */
static enum found receive(struct vfio_link *link) {
    memmove(link->buffer, link->buffer + link->begin, link->end - link->begin);
    link->files_until -= link->files_until < link->begin ? link->files_until : link->begin;
    link->end -= link->begin;
    link->begin = 0;
    unsigned before = link->files.count;
    ssize_t got = socket_take(link->socket, link->buffer + link->end, sizeof link->buffer - link->end, &link->files);
    if (got <= 0)
        return at_end(link, got);
    link->end += (size_t)got;
    if (link->files.count > before)
        link->files_until = link->end;
    return FOUND_MESSAGE;
}

/* Whether the buffer begins with a whole message. */
static enum found look(const struct vfio_link *link, struct vfio_header *header) {
    if (link->end - link->begin < sizeof *header)
        return FOUND_NOTHING;
    memcpy(header, link->buffer + link->begin, sizeof *header);
    if (header->bytes < sizeof *header || header->bytes > VFIO_MOST_MESSAGE || (header->flags & VFIO_TYPE) > VFIO_REPLY) {
        say("the guest's program sent a message of command %" PRIu16 ", %" PRIu32 " bytes and flags %" PRIx32 ", which is not known here", header->command, header->bytes,
            header->flags);
        return FOUND_WRONG;
    }
    return link->end - link->begin < header->bytes ? FOUND_NOTHING : FOUND_MESSAGE;
}

enum found link_next(struct vfio_link *link, struct vfio_message *message) {
    if (link->files_until && link->files_until <= link->begin) { /* those of the last message that it has not taken */
        files_close(&link->files);
        link->files_until = 0;
    }
    enum found found = look(link, &message->header);
    if (found == FOUND_NOTHING) {
        found = receive(link);
        if (found == FOUND_MESSAGE)
            found = look(link, &message->header);
    }
    if (found != FOUND_MESSAGE)
        return found;
    message->data = link->buffer + link->begin + sizeof message->header;
    message->bytes = message->header.bytes - sizeof message->header;
    link->begin += message->header.bytes;
    message->files = link->files_until && link->files_until <= link->begin ? &link->files : &link->none;
    return FOUND_MESSAGE;
}

/* ---- sending ---- */

static bool send_message(struct vfio_link *link, struct vfio_header *header, const struct vfio_part *parts, unsigned count) {
    uint8_t message[sizeof *header + 2 * sizeof(struct vfio_dma_access) + VFIO_MOST_DATA];
    size_t at = sizeof *header;
    for (unsigned i = 0; i < count; i++) {
        memcpy(message + at, parts[i].at, parts[i].bytes);
        at += parts[i].bytes;
    }
    header->bytes = (uint32_t)at;
    memcpy(message, header, sizeof *header);
    return socket_send(link->socket, message, at);
}

bool link_reply(struct vfio_link *link, const struct vfio_header *asked, int error, const struct vfio_part *parts, unsigned count) {
    struct vfio_header header = {.id = asked->id, .command = asked->command, .flags = VFIO_REPLY | (error ? VFIO_ERROR : 0), .error = (uint32_t)error};
    if (asked->flags & VFIO_NO_REPLY)
        return true;
    return send_message(link, &header, parts, error ? 0 : count);
}

bool link_ask(struct vfio_link *link, uint16_t id, enum vfio_command command, const struct vfio_part *parts, unsigned count) {
    struct vfio_header header = {.id = id, .command = (uint16_t)command};
    return send_message(link, &header, parts, count);
}
