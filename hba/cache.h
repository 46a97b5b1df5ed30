/* The writes that no flush has come after, and the sectors that have become zeros since, in the order in which the disk carried them out, and what a
   loss of power makes of them (../host/README.md, "Power loss"). Nothing is kept unless a script lets the power be lost. */
#ifndef AHCI_HBA_CACHE_H
#define AHCI_HBA_CACHE_H

#include "disk.h"

#include <stdbool.h>
#include <stddef.h>
#include <stdint.h>

/* A write, or a run of sectors that became zeros. */
struct cached {
    struct cached *next;
    uint32_t lba, sectors;
    bool is_zeros;
    bool is_certain;       /* no loss takes it: it was carried out, and has FUA or the disk's cache was not enabled */
    bool is_begun;         /* it was not carried out */
    uint32_t kept, end;    /* after a loss: the first of its sectors that is kept, counted from `lba`, and the one behind the last */
    uint8_t bytes[];       /* its sectors before it, and then after it unless they are zeros */
};

struct cache {
    bool is_on;
    const struct disk *disk;
    struct cached *first, **last;
    struct cached *coming; /* what is carried out now: a write, or runs that become zeros */
    uint64_t bytes;        /* of all */
};

/* `is_on`: the power may be lost. */
void cache_begin(struct cache *cache, const struct disk *disk, bool is_on);

/* A write is about to be carried out; `is_certain`: it is on the medium then. It returns false if there is no memory to note that. */
bool cache_prepare(struct cache *cache, uint32_t lba, uint32_t sectors, bool is_certain);

/* The same of sectors that are about to become zeros. Those that are zeros already are not noted, so that the trim of a sparse disk takes no memory: a
   loss leaves them as without the trim. */
bool cache_prepare_zeros(struct cache *cache, uint32_t lba, uint32_t sectors, bool is_certain);

/* What was prepared is done, or was refused. */
void cache_settle(struct cache *cache, bool is_done);

/* A flush is carried out: all writes are on the medium. */
void cache_flush(struct cache *cache);

/* Forgets all writes. */
void cache_clear(struct cache *cache);

/* A write that the disk has begun and not carried out, when the power is lost. It returns false if there is no memory. */
bool cache_add(struct cache *cache, uint32_t lba, uint32_t sectors, uint8_t **bytes);

/* Draws what a loss of power keeps, by a seed. */
void cache_lose(struct cache *cache, uint64_t seed);

/* The disk as the loss has left it. */
struct disk cache_left(struct cache *cache);

#endif
