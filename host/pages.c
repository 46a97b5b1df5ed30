#include "pages.h"

#include <stdlib.h>

#define LEAST_ROOM 64 /* runs */

static uint32_t end_of(const struct page_run *run) {
    return run->first + run->count;
}

/* Takes a run into another one that it overlaps or touches. It returns false if it does neither. */
static bool is_joined(struct page_run *to, struct page_run it) {
    if (it.first > end_of(to) || to->first > end_of(&it))
        return false;
    uint32_t end = end_of(to) > end_of(&it) ? end_of(to) : end_of(&it);
    to->first = to->first < it.first ? to->first : it.first;
    to->count = end - to->first;
    return true;
}

static int by_first(const void *a, const void *b) {
    uint32_t left = ((const struct page_run *)a)->first, right = ((const struct page_run *)b)->first;
    return (left > right) - (left < right);
}

uint64_t pages_count(const struct pages *pages) {
    uint64_t total = 0;
    for (size_t at = 0; at < pages->count; at++)
        total += pages->runs[at].count;
    return total;
}

uint64_t pages_settle(struct pages *pages) {
    size_t kept = 0;
    if (pages->count)
        qsort(pages->runs, pages->count, sizeof *pages->runs, by_first);
    for (size_t at = 0; at < pages->count; at++)
        if (!kept || !is_joined(&pages->runs[kept - 1], pages->runs[at]))
            pages->runs[kept++] = pages->runs[at];
    pages->count = kept;
    return pages_count(pages);
}

/* The room doubles only if the merged runs need more than half of it: so a run costs the sorting of a few others, however many there are. */
bool pages_reserve(struct pages *pages, size_t more) {
    if (pages->room - pages->count >= more)
        return true;
    pages_settle(pages);
    size_t wanted = 2 * (pages->count + more);
    if (wanted < LEAST_ROOM)
        wanted = LEAST_ROOM;
    if (wanted <= pages->room)
        return true;
    struct page_run *grown = realloc(pages->runs, wanted * sizeof *grown);
    if (!grown)
        return pages->room - pages->count >= more;
    pages->runs = grown;
    pages->room = wanted;
    return true;
}

void pages_add(struct pages *pages, uint32_t lba, uint32_t sectors) {
    uint32_t first = lba / PAGE_SECTORS, last = (uint32_t)(((uint64_t)lba + sectors - 1) / PAGE_SECTORS);
    const struct page_run it = {.first = first, .count = last - first + 1};
    if (!pages->count || !is_joined(&pages->runs[pages->count - 1], it))
        pages->runs[pages->count++] = it;
}

void pages_append(struct pages *pages, const struct pages *others) {
    for (size_t at = 0; at < others->count; at++)
        pages->runs[pages->count++] = others->runs[at];
}

void pages_clear(struct pages *pages) {
    pages->count = 0;
}

void pages_free(struct pages *pages) {
    free(pages->runs);
    *pages = (struct pages){0};
}
