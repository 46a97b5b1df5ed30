/* The image is written back while the guest goes on: the pages that were written are copied piece by piece between the device's steps, and then a thread
   writes the copy to the file and waits for the disk. */
#ifndef AHCI_HBA_WRITEBACK_H
#define AHCI_HBA_WRITEBACK_H

#include "disk.h"
#include "mapped.h"
#include "page_copy.h"
#include "worker.h"

#include <stdbool.h>
#include <stddef.h>

enum writeback_state {
    WRITEBACK_NONE,
    WRITEBACK_COPIES, /* the pages are copied */
    WRITEBACK_WRITES  /* the thread has the copy */
};

struct writeback {
    enum writeback_state state;
    struct mapped *mapped;
    const struct disk *disk;
    struct page_copy copy;
    struct mapped taken;  /* the image as the thread has it, with the changes that are written back */
    size_t runs;          /* changes_runs of these at the start: if the write-back fails they are changes again */
    struct changes spare; /* room for what changes meanwhile */
    int failed;          /* an errno of the thread */
    struct worker worker; /* there is none before the first write-back */
};

/* Prepares write-backs of an image. Nothing is allocated before the first one. */
void writeback_begin(struct writeback *writeback, struct mapped *mapped, const struct disk *disk);

/* Makes room for one call of mapped_wrote or mapped_zeroed. It returns false if there is no memory. */
bool writeback_reserve(const struct writeback *writeback);

/* Begins one. It returns false if there is no memory or no thread for it: then the caller writes by itself. */
bool writeback_start(struct writeback *writeback);

/* Copies some more pages. */
void writeback_copy(struct writeback *writeback);

/* Takes the end of a write-back, which is there if the worker's `done` is readable. It returns true then; *failed is 0 or an errno. */
bool writeback_take(struct writeback *writeback, int *failed);

/* Waits for one that is written, and drops one that is copied. */
void writeback_end(struct writeback *writeback);

#endif
