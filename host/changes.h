/* What has changed of a disk since its image was written: pages that were written, and pages that became zeros, whose bytes needn't be read. A page
   may be both. */
#ifndef AHCI_HOST_CHANGES_H
#define AHCI_HOST_CHANGES_H

#include "pages.h"

struct changes {
    struct pages written;
    struct pages zeroed; /* all zeros, unless they were written too */
};

/* Makes room for so many calls of changes_wrote and changes_zeroed. It returns false if there is no memory. */
bool changes_reserve(struct changes *changes, size_t more);

/* Some sectors, at least one, were written, or became zeros. Room was made. */
void changes_wrote(struct changes *changes, uint32_t lba, uint32_t sectors);
void changes_zeroed(struct changes *changes, uint32_t lba, uint32_t sectors);

bool changes_are_none(const struct changes *changes);

/* Adds others. Room was made for as many calls as they have runs of one kind at most (changes_runs). */
void changes_append(struct changes *changes, const struct changes *others);
size_t changes_runs(const struct changes *changes);

/* Sorts and merges the runs of both kinds. It returns how many pages they have; one that is both counts twice. */
uint64_t changes_settle(struct changes *changes);

/* Forgets all, and keeps the room. */
void changes_clear(struct changes *changes);

void changes_free(struct changes *changes);

#endif
