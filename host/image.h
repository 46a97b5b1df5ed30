/* The file that has a disk's sectors: its name and its size. */
#ifndef AHCI_HOST_IMAGE_H
#define AHCI_HOST_IMAGE_H

#include "disk.h"

#include <stdint.h>

struct image {
    char *path;     /* of the file that symbolic links lead to; NULL if there is no image */
    uint64_t bytes; /* how many it had at the start, or after the last write-back */
};

/* Finds the image, which has to be a regular file. All calls return 0, or -1 once they have printed why, if nothing else is said. */
int image_find(struct image *image, const char *file);

/* Settles how many sectors the disk has, `most` at most: as many as were asked for; if *sectors is 0, as the image has, or MOST_SECTORS. */
int image_settle(const struct image *image, uint32_t *sectors, uint32_t most);

/* -1 once it has printed that FILE.new is there: it may have sectors that are nowhere else. */
int image_look_for_new(const struct image *image);

/* Makes sure that what was done to names in the folder of a path is on the disk: without it a power failure could take it back. It returns 0, or an errno
   once it has printed it; a folder that may not be read, or whose file system doesn't do that, is no error. */
int image_sync_folder(const char *path);

void image_end(struct image *image);

#endif
