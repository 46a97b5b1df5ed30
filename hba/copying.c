#include "copying.h"

#include <stdlib.h>
#include <string.h>

#define PIECE 2048u /* sectors that are copied at once: 1 MiB */

bool copying_begin(struct copying *copying, const struct disk *disk) {
    copying->disk = disk;
    copying->copied = 0;
    if (!copying->sectors)
        copying->sectors = malloc((size_t)disk->sectors * SECTOR_BYTES);
    return copying->sectors;
}

bool copying_go_on(struct copying *copying) {
    const struct disk *disk = copying->disk;
    uint32_t left = disk->sectors - copying->copied, count = left < PIECE ? left : PIECE;
    for (uint32_t i = 0; i < count; i++, copying->copied++)
        disk->copy(disk->it, copying->copied, copying->sectors + (size_t)copying->copied * SECTOR_BYTES);
    return copying->copied == disk->sectors;
}

static void copy_sector(void *it, uint32_t lba, uint8_t *sector) {
    const struct copying *copying = it;
    memcpy(sector, copying->sectors + (size_t)lba * SECTOR_BYTES, SECTOR_BYTES);
}

struct disk copying_disk(struct copying *copying) {
    return (struct disk){.it = copying, .sectors = copying->disk->sectors, .copy = copy_sector};
}

void copying_end(struct copying *copying) {
    free(copying->sectors);
    copying->sectors = NULL;
}
