/* Which pages of a disk were written, as runs. Memory and time are those of what was written, whatever the size of the disk. */
#ifndef AHCI_HOST_PAGES_H
#define AHCI_HOST_PAGES_H

#include "disk.h"

#include <stdbool.h>
#include <stddef.h>
#include <stdint.h>

#define PAGE_SECTORS 8
#define PAGE_BYTES (PAGE_SECTORS * SECTOR_BYTES)

struct page_run {
    uint32_t first, count; /* pages */
};

struct pages {
    struct page_run *runs; /* in the order of the writes, until pages_settle */
    size_t count, room;
};

/* Makes room for so many calls of pages_add. It returns false if there is no memory. */
bool pages_reserve(struct pages *pages, size_t more);

/* Adds the pages of some sectors, at least one. Room was made. */
void pages_add(struct pages *pages, uint32_t lba, uint32_t sectors);

/* Adds the runs of others. Room was made for as many calls of pages_add. */
void pages_append(struct pages *pages, const struct pages *others);

/* Sorts the runs, and merges those that overlap or touch. It returns how many pages they have. */
uint64_t pages_settle(struct pages *pages);

/* How many pages the runs have, if they are settled. */
uint64_t pages_count(const struct pages *pages);

/* Forgets the runs, and keeps the room. */
void pages_clear(struct pages *pages);

void pages_free(struct pages *pages);

#endif
