#include "options.h"

#include "disk.h"
#include "say.h"

#include <inttypes.h>
#include <string.h>

#define LEAST_JOURNAL (UINT64_C(4) << 20)  /* of a small disk */
#define MOST_JOURNAL (UINT64_C(256) << 20) /* and of a large one */
#define JOURNAL_DISKS 4                    /* that of others, in disks */

int option_number(const char *name, const char *value, uint64_t least, uint64_t most, uint64_t *number) {
    const char *end = take_digits(value, number);
    if (end && !*end && *number >= least && *number <= most)
        return 0;
    say_expected(name, value, "a decimal number from %" PRIu64 " to %" PRIu64, least, most);
    return -1;
}

int option_small(const char *name, const char *value, uint32_t least, uint32_t most, uint32_t *number) {
    uint64_t found = 0;
    if (option_number(name, value, least, most, &found))
        return -1;
    *number = (uint32_t)found;
    return 0;
}

int option_bytes(const char *name, const char *value, uint64_t *bytes) {
    const char *end = take_bytes(value, bytes);
    if (end && !*end && *bytes)
        return 0;
    say_expected(name, value, "a number of bytes from 1 on, such as 4096, 512K, 64M or 1G");
    return -1;
}

int option_size(const char *name, const char *value, uint32_t *sectors) {
    uint64_t bytes = 0;
    const char *end = take_bytes(value, &bytes);
    if (end && !*end && bytes && bytes % SECTOR_BYTES == 0 && bytes / SECTOR_BYTES <= LARGEST_DISK) {
        *sectors = (uint32_t)(bytes / SECTOR_BYTES);
        return 0;
    }
    say_expected(name, value, "whole sectors of 512 bytes, at most %" PRIu64 " bytes in all, such as 2097152, 64M, 100G or 1T", (uint64_t)LARGEST_DISK * SECTOR_BYTES);
    return -1;
}

uint64_t usual_journal(uint32_t sectors) {
    uint64_t usual = JOURNAL_DISKS * (uint64_t)sectors * SECTOR_BYTES;
    return usual < LEAST_JOURNAL ? LEAST_JOURNAL : usual > MOST_JOURNAL ? MOST_JOURNAL : usual;
}

int option_delay(const char *name, const char *value, struct delay *delay) {
    const char *end = take_delay(value, delay);
    if (end && !*end)
        return 0;
    say_expected(name, value, "MICROSECONDS or MICROSECONDS+JITTER, each a decimal number up to %u", MOST_DELAY);
    return -1;
}

int option_word(const char *name, const char *value, const char *const *words, const char *list, unsigned *place) {
    for (unsigned at = 0; words[at]; at++)
        if (!strcmp(value, words[at])) {
            *place = at;
            return 0;
        }
    say_expected(name, value, "%s", list);
    return -1;
}
