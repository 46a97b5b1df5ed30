/* The guest's memory by vfio-user: regions come with a file or without. Without one their bytes are asked for and sent by messages, to which the answer
   comes among other messages; until then the device waits, and register accesses are answered. */
#ifndef AHCI_HBA_VFIO_MEMORY_H
#define AHCI_HBA_VFIO_MEMORY_H

#include "memory.h"
#include "vfio_link.h"

#include <stdbool.h>
#include <stddef.h>
#include <stdint.h>

enum transfer_state {
    TRANSFER_NONE,
    TRANSFER_ASKED, /* an answer is to come */
    TRANSFER_ENDED, /* all bytes are there */
    TRANSFER_FAILED /* the other side can't reach some bytes */
};

/* A run that is moved, message by message. */
struct transfer {
    enum transfer_state state;
    bool writes;
    uint64_t address;
    size_t count;
    size_t done; /* bytes that are moved */
    size_t part; /* bytes of the message that waits for an answer */
    uint16_t id; /* of that message */
    uint8_t *bytes;
    size_t room;
};

struct vfio_memory {
    struct memory *memory;
    struct vfio_link *link;
    struct transfer transfer;
};

/* Serves the regions without a file of a memory by a connection. */
void vfio_memory_begin(struct vfio_memory *it, struct memory *memory, struct vfio_link *link);

/* DMA_MAP and DMA_UNMAP. The answer is 0 or an errno. */
int vfio_memory_map(struct vfio_memory *it, const struct vfio_dma_map *map, struct files *files);
int vfio_memory_unmap(struct vfio_memory *it, const struct vfio_dma_unmap *unmap);

/* Takes a reply to DMA_READ or DMA_WRITE. */
void vfio_memory_answered(struct vfio_memory *it, const struct vfio_message *message);

/* The other side has gone: there is no memory any more. */
void vfio_memory_drop(struct vfio_memory *it);

void vfio_memory_end(struct vfio_memory *it);

#endif
