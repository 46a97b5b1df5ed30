/* A copy of the disk's sectors for a thread, which is made piece by piece between the device's steps. */
#ifndef AHCI_HBA_COPYING_H
#define AHCI_HBA_COPYING_H

#include "disk.h"

#include <stdbool.h>
#include <stdint.h>

struct copying {
    const struct disk *disk;
    uint8_t *sectors; /* the copy; NULL if there is no memory for it yet */
    uint32_t copied;  /* sectors */
};

/* Begins a copy, in the memory of the one before. It returns false if there is no memory. */
bool copying_begin(struct copying *copying, const struct disk *disk);

/* Copies some more sectors. It returns true once all are copied. */
bool copying_go_on(struct copying *copying);

/* The copy as a disk. */
struct disk copying_disk(struct copying *copying);

/* Frees the copy. */
void copying_end(struct copying *copying);

#endif
