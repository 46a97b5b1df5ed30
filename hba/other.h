/* Other disks that a script plugs in (`plug another`): each has an image of its own or none, a serial number and a record. */
#ifndef AHCI_HBA_OTHER_H
#define AHCI_HBA_OTHER_H

#include <limits.h>
#include <stdbool.h>
#include <stdint.h>

struct device;
struct settings;

struct other {
    uint32_t count;        /* how many were plugged in */
    bool has_failed;       /* an image could not be written or opened, a record could not be begun or has ended, or there was no memory */
    char folder[PATH_MAX]; /* of the record of the last one */
};

/* Whether the script can have other disks: the files are there that its events name, a loss of power has an image of each, and the record's limit is large enough. It returns
   0, or -1 once it has printed what is wrong. *most is how many sectors the largest disk has; before that those of the first one. */
int other_check(const struct settings *settings, uint32_t *most);

/* Plugs in another disk: over an image, or with a NULL one of zeros that is as large as the disk that was pulled out. That disk's image is written and its record
   ends. It returns false if none is plugged in, and the slot is as it was: a disk is in, or once it has printed why. */
bool other_plug(struct device *device, const char *file);

/* It returns 0, or -1 if something has failed. */
int other_end(const struct other *other);

#endif
