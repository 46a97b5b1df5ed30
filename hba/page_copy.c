#include "page_copy.h"

#include <stdlib.h>
#include <string.h>

#define PIECE 256 /* pages that are copied at once: 1 MiB */

bool page_copy_begin(struct page_copy *copy, const struct disk *disk, const struct pages *pages, uint64_t count) {
    const size_t bytes = count ? (size_t)count * PAGE_BYTES : 1; /* NULL means that there is no memory */
    *copy = (struct page_copy){.disk = disk, .pages = pages, .bytes = malloc(bytes)};
    return copy->bytes;
}

static const struct page_run *run_of(const struct page_copy *copy) {
    return &copy->pages->runs[copy->run];
}

static void go_to_next_run(struct page_copy *copy) {
    copy->before += run_of(copy)->count;
    copy->run++;
    copy->page = 0;
}

static uint8_t *place_of(const struct page_copy *copy) {
    return copy->bytes + (copy->before + copy->page) * PAGE_BYTES;
}

/* Copies the next page. The disk may end in it. */
static void copy_page(struct page_copy *copy) {
    uint8_t *at = place_of(copy);
    uint64_t lba = ((uint64_t)run_of(copy)->first + copy->page) * PAGE_SECTORS;
    for (uint32_t i = 0; i < PAGE_SECTORS && lba + i < copy->disk->sectors; i++)
        copy->disk->copy(copy->disk->it, (uint32_t)lba + i, at + (size_t)i * SECTOR_BYTES);
    if (++copy->page == run_of(copy)->count)
        go_to_next_run(copy);
}

bool page_copy_go_on(struct page_copy *copy) {
    for (unsigned left = PIECE; left && copy->run < copy->pages->count; left--)
        copy_page(copy);
    return copy->run == copy->pages->count;
}

static void copy_sector(void *it, uint32_t lba, uint8_t *sector) {
    struct page_copy *copy = it;
    uint32_t page = lba / PAGE_SECTORS;
    while (page - run_of(copy)->first >= run_of(copy)->count)
        go_to_next_run(copy);
    copy->page = page - run_of(copy)->first;
    memcpy(sector, place_of(copy) + (size_t)(lba % PAGE_SECTORS) * SECTOR_BYTES, SECTOR_BYTES);
}

struct disk page_copy_disk(struct page_copy *copy) {
    copy->run = copy->page = 0;
    copy->before = 0;
    return (struct disk){.it = copy, .sectors = copy->disk->sectors, .copy = copy_sector};
}

void page_copy_end(struct page_copy *copy) {
    free(copy->bytes);
    copy->bytes = NULL;
}
