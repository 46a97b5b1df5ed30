/* How the image and the record read a disk: that of a port or of a controller. */
#ifndef AHCI_HOST_DISK_H
#define AHCI_HOST_DISK_H

#include <stdint.h>

#define SECTOR_BYTES 512
#define MOST_SECTORS 131072     /* of a disk in memory, and of a script: 64 MiB. One that has more is large */
#define LARGEST_DISK UINT32_MAX /* of a disk over an image, in sectors */
#define MOST_SLOTS 32

struct disk {
    void *it;
    uint32_t sectors;
    void (*copy)(void *it, uint32_t lba, uint8_t *sector); /* copies a sector as it is now */
};

#endif
