#include "touched.h"

#include "pages.h"

#include <stdbool.h>
#include <string.h>
#include <sys/mman.h>

#define WORD_PAGES 64u

static uint64_t pages_up_to(uint64_t sectors) {
    return (sectors + PAGE_SECTORS - 1) / PAGE_SECTORS;
}

int sectors_take(const struct disk *disk, uint32_t first, uint32_t end, take_run *take, void *it) {
    static const uint8_t zeros[SECTOR_BYTES];
    uint8_t bytes[RUN_SECTORS * SECTOR_BYTES];
    uint32_t count = 0;
    for (uint32_t lba = first; lba < end; lba++) {
        uint8_t *to = bytes + (size_t)count * SECTOR_BYTES;
        disk->copy(disk->it, lba, to);
        bool is_blank = !memcmp(to, zeros, sizeof zeros);
        count += !is_blank;
        if (count < RUN_SECTORS && !is_blank)
            continue;
        if (count && take(it, lba + !is_blank - count, count, bytes))
            return -1;
        count = 0;
    }
    return count ? take(it, end - count, count, bytes) : 0;
}

int touched_begin(struct touched *touched, uint32_t sectors) {
    *touched = (struct touched){0};
    if (sectors <= MOST_SECTORS)
        return 0;
    size_t words = (size_t)(pages_up_to(sectors) + WORD_PAGES - 1) / WORD_PAGES;
    void *bits = mmap(NULL, words * sizeof(uint64_t), PROT_READ | PROT_WRITE, MAP_PRIVATE | MAP_ANONYMOUS | MAP_NORESERVE, -1, 0);
    if (bits == MAP_FAILED)
        return -1;
    *touched = (struct touched){.bits = bits, .words = words};
    return 0;
}

/* Whether a page is touched first now; it counts as touched then. */
static bool is_first(struct touched *touched, uint64_t page) {
    uint64_t bit = UINT64_C(1) << page % WORD_PAGES, *word = &touched->bits[page / WORD_PAGES];
    bool was_there = *word & bit;
    *word |= bit;
    return !was_there;
}

int touched_take(struct touched *touched, const struct disk *disk, uint64_t lba, uint32_t sectors, take_run *take, void *it) {
    if (!touched->bits || lba >= disk->sectors)
        return 0;
    uint64_t end = pages_up_to(lba + sectors < disk->sectors ? lba + sectors : disk->sectors);
    for (uint64_t page = lba / PAGE_SECTORS, first = page; page < end; first = ++page) {
        while (page < end && is_first(touched, page))
            page++;
        uint64_t last = page * PAGE_SECTORS < disk->sectors ? page * PAGE_SECTORS : disk->sectors;
        if (page > first && sectors_take(disk, (uint32_t)(first * PAGE_SECTORS), (uint32_t)last, take, it))
            return -1;
    }
    return 0;
}

/* A page without a sector of zeros begins one run at most, and any other has room for its runs where its zeros are left out. */
uint64_t touched_most(uint32_t disk_sectors, uint32_t sectors, size_t run_bytes) {
    uint64_t pages = disk_sectors > MOST_SECTORS && sectors ? (uint64_t)sectors / PAGE_SECTORS + 2 : 0;
    return pages * (PAGE_BYTES + run_bytes);
}

void touched_clear(struct touched *touched) {
    size_t bytes = touched->words * sizeof *touched->bits;
    if (touched->bits && madvise(touched->bits, bytes, MADV_DONTNEED))
        memset(touched->bits, 0, bytes);
}

void touched_end(struct touched *touched) {
    if (touched->bits)
        munmap(touched->bits, touched->words * sizeof *touched->bits);
    *touched = (struct touched){0};
}
