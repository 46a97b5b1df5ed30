#include "cache.h"

#include "generator.h"
#include "touched.h"

#include <stdlib.h>
#include <string.h>

#define MOST_BYTES (UINT64_C(64) << 20) /* of writes: beyond that the oldest ones go to the medium */
#define CHANCES 8

void cache_begin(struct cache *cache, const struct disk *disk, bool is_on) {
    *cache = (struct cache){.is_on = is_on, .disk = disk};
    cache->last = &cache->first;
}

/* ---- writes ---- */

static size_t bytes_of(uint32_t sectors) {
    return (size_t)sectors * SECTOR_BYTES;
}

static uint8_t *after(struct cached *it) {
    return it->bytes + bytes_of(it->sectors);
}

/* A write, or a run of zeros, without its bytes; NULL if there is no memory. */
static struct cached *empty(uint32_t lba, uint32_t sectors, bool is_zeros) {
    struct cached *it = malloc(sizeof *it + (is_zeros ? 1 : 2) * bytes_of(sectors));
    if (it)
        *it = (struct cached){.lba = lba, .sectors = sectors, .is_zeros = is_zeros};
    return it;
}

static void copy_sectors(const struct cache *cache, const struct cached *it, uint8_t *to) {
    for (uint32_t at = 0; at < it->sectors; at++)
        cache->disk->copy(cache->disk->it, it->lba + at, to + bytes_of(at));
}

/* A write whose sectors are as they are before it; NULL if there is no memory. */
static struct cached *made(const struct cache *cache, uint32_t lba, uint32_t sectors) {
    struct cached *it = empty(lba, sectors, false);
    if (it)
        copy_sectors(cache, it, it->bytes);
    return it;
}

static void append(struct cache *cache, struct cached *it) {
    *cache->last = it;
    cache->last = &it->next;
    cache->bytes += bytes_of(it->sectors);
}

/* The oldest write is on the medium for good. */
static void forget_first(struct cache *cache) {
    struct cached *it = cache->first;
    cache->bytes -= bytes_of(it->sectors);
    cache->first = it->next;
    if (!cache->first)
        cache->last = &cache->first;
    free(it);
}

/* Forgets what no loss can change any more. */
static void forget_certain(struct cache *cache) {
    while (cache->first && (cache->first->is_certain || cache->bytes > MOST_BYTES))
        forget_first(cache);
}

bool cache_prepare(struct cache *cache, uint32_t lba, uint32_t sectors, bool is_certain) {
    if (!cache->is_on)
        return true;
    cache->coming = made(cache, lba, sectors);
    if (!cache->coming)
        return false;
    cache->coming->is_certain = is_certain;
    return true;
}

/* Notes a run of sectors that become zeros and are none. */
static int prepare_run(void *of, uint32_t lba, uint32_t count, const uint8_t *bytes) {
    struct cache *cache = of;
    struct cached *it = empty(lba, count, true);
    if (!it)
        return -1;
    memcpy(it->bytes, bytes, bytes_of(count));
    it->next = cache->coming;
    cache->coming = it;
    return 0;
}

bool cache_prepare_zeros(struct cache *cache, uint32_t lba, uint32_t sectors, bool is_certain) {
    if (!cache->is_on)
        return true;
    const bool has_memory = !sectors_take(cache->disk, lba, lba + sectors, prepare_run, cache);
    if (!has_memory)
        cache_settle(cache, false);
    for (struct cached *it = cache->coming; it; it = it->next)
        it->is_certain = is_certain;
    return has_memory;
}

/* Takes what was prepared from `coming`. */
static struct cached *take_coming(struct cache *cache) {
    struct cached *it = cache->coming;
    cache->coming = it->next;
    it->next = NULL;
    return it;
}

void cache_settle(struct cache *cache, bool is_done) {
    while (cache->coming) {
        struct cached *it = take_coming(cache);
        if (!is_done) {
            free(it);
            continue;
        }
        if (!it->is_zeros)
            copy_sectors(cache, it, after(it));
        append(cache, it);
    }
    forget_certain(cache);
}

void cache_clear(struct cache *cache) {
    while (cache->first)
        forget_first(cache);
}

void cache_flush(struct cache *cache) {
    cache_clear(cache);
}

bool cache_add(struct cache *cache, uint32_t lba, uint32_t sectors, uint8_t **bytes) {
    struct cached *it = made(cache, lba, sectors);
    if (!it)
        return false;
    it->is_begun = true;
    *bytes = after(it);
    append(cache, it);
    return true;
}

/* ---- a loss ---- */

/* Draws what of a write is kept: so many of CHANCES are, and one that was not carried out may be cut. */
static void draw(struct cached *it, uint64_t chance, uint64_t *random) {
    bool is_kept = it->is_certain || next_random(random) % CHANCES < chance;
    it->kept = 0;
    it->end = is_kept ? it->sectors : 0;
    if (!it->is_begun)
        return;
    uint32_t cut = (uint32_t)(next_random(random) % (it->sectors + UINT64_C(1)));
    uint64_t how = next_random(random) % 3;
    if (how == 1)
        it->end = cut;
    else if (how == 2) {
        it->kept = cut;
        it->end = it->sectors;
    }
}

void cache_lose(struct cache *cache, uint64_t seed) {
    uint64_t random = generator_of(seed), chance = next_random(&random) % (CHANCES + 1);
    for (struct cached *it = cache->first; it; it = it->next)
        draw(it, chance, &random);
}

/* A sector: what it had before the first write of it, and then that of each write that is kept. */
static void copy_left(void *of, uint32_t lba, uint8_t *sector) {
    struct cache *cache = of;
    bool is_touched = false;
    for (struct cached *it = cache->first; it; it = it->next) {
        const uint32_t at = lba - it->lba;
        if (lba < it->lba || at >= it->sectors)
            continue;
        if (!is_touched)
            memcpy(sector, it->bytes + bytes_of(at), SECTOR_BYTES);
        is_touched = true;
        if (at < it->kept || at >= it->end)
            continue;
        if (it->is_zeros)
            memset(sector, 0, SECTOR_BYTES);
        else
            memcpy(sector, after(it) + bytes_of(at), SECTOR_BYTES);
    }
    if (!is_touched)
        cache->disk->copy(cache->disk->it, lba, sector);
}

struct disk cache_left(struct cache *cache) {
    return (struct disk){.it = cache, .sectors = cache->disk->sectors, .copy = copy_left};
}
