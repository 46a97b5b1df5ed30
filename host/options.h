/* The values of options, each as a whole. A call returns 0, or -1 after it has printed what was expected. */
#ifndef AHCI_HOST_OPTIONS_H
#define AHCI_HOST_OPTIONS_H

#include "numbers.h"

#include <stdint.h>

/* A decimal number of a range. */
int option_number(const char *name, const char *value, uint64_t least, uint64_t most, uint64_t *number);
int option_small(const char *name, const char *value, uint32_t least, uint32_t most, uint32_t *number);

/* A number of bytes, at least 1, perhaps with a unit. */
int option_bytes(const char *name, const char *value, uint64_t *bytes);

/* A disk's size in bytes, in sectors: 1 to 2^32 - 1 whole ones. */
int option_size(const char *name, const char *value, uint32_t *sectors);

/* A time to wait. */
int option_delay(const char *name, const char *value, struct delay *delay);

/* The size of the queue's journal at which it is trimmed if no option says so: four disks, at least 4 MiB and at most 256 MiB. */
uint64_t usual_journal(uint32_t sectors);

/* One of some words, which end with NULL: its place. `list` names them in words. */
int option_word(const char *name, const char *value, const char *const *words, const char *list, unsigned *place);

#endif
