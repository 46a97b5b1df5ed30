/* The device's side of a virtqueue with a split ring (Virtual I/O Device 1.1, section 2.6). */
#ifndef AHCI_HBA_RING_H
#define AHCI_HBA_RING_H

#include "memory.h"

#include <stdbool.h>
#include <stdint.h>

struct ring {
    uint32_t entries;
    uint64_t descriptors; /* addresses of the guest */
    uint64_t used;
    uint64_t available;
    uint16_t next; /* the place of the next buffer in the ring of available ones */
    int kick;      /* an eventfd by which the guest says that there are some; -1 if there is none */
    int call;      /* one by which the device says that some are used */
};

/* A buffer of the guest. */
struct chain {
    uint16_t head;
    uint8_t request[64]; /* the bytes that the device reads; more than these are not taken */
    uint32_t request_bytes;
    uint8_t *answer; /* where the device writes, or NULL */
    uint32_t answer_bytes;
};

/* Takes the next buffer. It returns false if there is none, or if the ring is broken, which is said in the log. */
bool ring_take(struct ring *ring, const struct memory *memory, struct chain *chain);

/* Gives a buffer back, with so many bytes written. */
void ring_give(struct ring *ring, const struct memory *memory, const struct chain *chain, uint32_t written);

/* Says that buffers are used. */
void ring_signal(struct ring *ring);

#endif
