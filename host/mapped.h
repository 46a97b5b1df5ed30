/* The image of a disk: the file is mapped, and the pages that were written are written back into it, under a journal. A large disk is made over the mapping, so that
   the file is never read whole. A kill at any moment leaves the sectors of the last write-back or of the one before it. */
#ifndef AHCI_HOST_MAPPED_H
#define AHCI_HOST_MAPPED_H

#include "changes.h"
#include "disk.h"
#include "image.h"

#include <stdbool.h>
#include <stddef.h>
#include <stdint.h>

struct mapped {
    struct image image;
    int file;             /* locked; -1: there is no image */
    int why_not;          /* an errno: why it can't be written, or 0 */
    const uint8_t *bytes; /* the mapping; NULL if there is none, or if the image has no data */
    size_t length;        /* its whole sectors, in bytes: zeros fill up the last one. It ends where a hole up to the file's end begins */
    struct changes changes; /* since the last write-back */
    bool has_journal;     /* a write-back has failed and left FILE.journal, which is whole */
};

void mapped_begin(struct mapped *mapped);

/* Opens and locks the image that image_find has found, and applies or discards the journal of a server that was killed. It comes before image_settle. Calls
   that return an int return 0, or -1 once they have printed why, if nothing else is said. Without an image they do nothing. */
int mapped_open(struct mapped *mapped);

/* Maps the image, as it is now. */
int mapped_map(struct mapped *mapped);

/* All sectors of a small disk: those of the image, and zeros after them. The caller frees them. NULL once it has printed that there is no memory. */
uint8_t *mapped_copy(const struct mapped *mapped, uint32_t sectors);

/* Makes room for so many calls of mapped_wrote and mapped_zeroed. It returns false if there is no memory. */
bool mapped_reserve(struct mapped *mapped, size_t calls);

/* A command has written these sectors, or has made them zeros. */
void mapped_wrote(struct mapped *mapped, uint32_t lba, uint32_t sectors);
void mapped_zeroed(struct mapped *mapped, uint32_t lba, uint32_t sectors);

/* Whether a write-back has something to do. */
bool mapped_is_changed(const struct mapped *mapped);

/* Writes the changed pages back, as the disk has them. It returns 0, or an errno: then they are still changed, and the next call tries again. */
int mapped_write(struct mapped *mapped, const struct disk *disk);

void mapped_end(struct mapped *mapped);

#endif
