/* A connection by vfio-user: whole messages with the files that come with them, and replies. */
#ifndef AHCI_HBA_VFIO_LINK_H
#define AHCI_HBA_VFIO_LINK_H

#include "socket.h"
#include "vfio_messages.h"

#include <stdbool.h>
#include <stddef.h>
#include <stdint.h>

#define VFIO_MOST_DATA 65536u /* bytes of data of one message, in either direction */
#define VFIO_MOST_MESSAGE (VFIO_MOST_DATA + 256u)

/* A message, which is there until the next one is looked for. */
struct vfio_message {
    struct vfio_header header;
    const uint8_t *data;
    size_t bytes; /* of the data */
    struct files *files;
};

struct vfio_link {
    int socket; /* -1: there is nobody */
    uint32_t most_data; /* bytes of data that the other side takes in one message */
    struct files files;
    struct files none;
    size_t files_until; /* the files belong to the message that has the byte before this one */
    size_t begin, end;  /* of the bytes that are not taken yet */
    uint8_t buffer[2 * VFIO_MOST_MESSAGE];
};

/* A part of a message. */
struct vfio_part {
    const void *at;
    size_t bytes;
};

void link_begin(struct vfio_link *link, int socket);

/* Looks for a message without waiting. FOUND_MESSAGE: it is in *message, and is the caller's until the next call. */
enum found link_next(struct vfio_link *link, struct vfio_message *message);

/* Replies with parts, or with an errno, unless no reply is wanted. It returns false if the other side is gone. */
bool link_reply(struct vfio_link *link, const struct vfio_header *asked, int error, const struct vfio_part *parts, unsigned count);

/* Sends a command. */
bool link_ask(struct vfio_link *link, uint16_t id, enum vfio_command command, const struct vfio_part *parts, unsigned count);

void link_end(struct vfio_link *link);

#endif
