/* Which pages of a large disk a part of the record has. Such a part begins with no sectors, and gets a page as it is then before the first command that touches it, while
   nothing in the part has written it. The pages are bits of memory that is taken as far as it is used. */
#ifndef AHCI_HOST_TOUCHED_H
#define AHCI_HOST_TOUCHED_H

#include "disk.h"

#include <stddef.h>
#include <stdint.h>

#define RUN_SECTORS 64 /* of a run at most */

struct touched {
    uint64_t *bits; /* a bit for each page; NULL for a small disk, whose part begins with all of its sectors */
    size_t words;
};

/* Takes a run of sectors of which none is all zeros. It returns 0, or -1 if no other run is wanted. */
typedef int take_run(void *it, uint32_t lba, uint32_t count, const uint8_t *bytes);

/* Hands on the sectors from `first` up to `end` as they are now, those of zeros left out. It returns what the last call of `take` returned. */
int sectors_take(const struct disk *disk, uint32_t first, uint32_t end, take_run *take, void *it);

/* Begins without a page; a small disk takes no memory. It returns 0, or -1 with errno. */
int touched_begin(struct touched *touched, uint32_t sectors);

/* Hands on the pages that a command touches first, as sectors_take does: neighbours in one run. They count as touched then. What passes the disk's end is left out. */
int touched_take(struct touched *touched, const struct disk *disk, uint64_t lba, uint32_t sectors, take_run *take, void *it);

/* How many bytes a command's pages have in a part at most, with so many bytes for each run. */
uint64_t touched_most(uint32_t disk_sectors, uint32_t sectors, size_t run_bytes);

/* Forgets all pages. */
void touched_clear(struct touched *touched);

void touched_end(struct touched *touched);

#endif
