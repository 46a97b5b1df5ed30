/* A copy of some pages of the disk for a thread, which is made piece by piece between the device's steps. */
#ifndef AHCI_HBA_PAGE_COPY_H
#define AHCI_HBA_PAGE_COPY_H

#include "disk.h"
#include "pages.h"

#include <stdbool.h>
#include <stddef.h>
#include <stdint.h>

struct page_copy {
    const struct disk *disk;
    const struct pages *pages; /* they are settled, and stay as they are */
    uint8_t *bytes;            /* of all these pages, in their order */
    size_t run;                /* where the copy is, and then the thread: a run, */
    uint32_t page;             /* a page of it, */
    uint64_t before;           /* and how many pages the runs before it have */
};

/* Begins a copy of so many pages. It returns false if there is no memory. */
bool page_copy_begin(struct page_copy *copy, const struct disk *disk, const struct pages *pages, uint64_t count);

/* Copies some more pages. It returns true once all are copied. */
bool page_copy_go_on(struct page_copy *copy);

/* The copy as a disk whose sectors are read once, in ascending order. */
struct disk page_copy_disk(struct page_copy *copy);

/* Frees the copy. */
void page_copy_end(struct page_copy *copy);

#endif
