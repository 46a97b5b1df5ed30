/* The journal of an image: the pages of a write-back, in a file of their own, which is whole on the disk before the first of them is written into the
   image. A journal that is whole can be written into the image as often as one likes; one that is not is of no use.

   The file has a header, the runs of pages, the runs of pages that become zeros, the bytes of the former, 4,096 a page, from the next multiple of
   4,096 on, and a sum of all that. A page that is in runs of both kinds has its bytes. Numbers are those of the machine. */
#ifndef AHCI_HOST_JOURNAL_H
#define AHCI_HOST_JOURNAL_H

#include "changes.h"
#include "disk.h"

#include <stdint.h>

enum journal_state {
    JOURNAL_NONE,   /* there is no file */
    JOURNAL_WHOLE,
    JOURNAL_TORN,   /* it was not written to its end */
    JOURNAL_STRANGE /* it is another file */
};

struct journal {
    int file;        /* -1: none */
    uint64_t before; /* bytes that the image had when the journal was written */
    uint64_t after;  /* those that it has once the pages are in it */
    uint64_t runs, pages;
    uint64_t zero_runs, zero_pages; /* those that become zeros */
};

/* Makes a journal at a path, where no file of another kind is, and waits until the disk has it. The changes are settled. All calls return 0 or an errno. */
int journal_write(struct journal *journal, const char *path, const struct disk *disk, const struct changes *changes, uint64_t before);

/* How many pages a journal has of both kinds. */
uint64_t journal_pages(const struct journal *journal);

/* Opens the journal at a path, and reads all of it: *state is what it is. */
int journal_open(struct journal *journal, const char *path, enum journal_state *state);

/* Writes the pages of a whole journal into the image, and waits until the disk has them. Runs of zeros become holes. */
int journal_apply(const struct journal *journal, int image);

void journal_close(struct journal *journal);

#endif
