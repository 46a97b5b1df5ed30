#include "changes.h"

bool changes_reserve(struct changes *changes, size_t more) {
    return pages_reserve(&changes->written, 2 * more) && pages_reserve(&changes->zeroed, more); /* zeros may have a page at each end that is not all zeros */
}

void changes_wrote(struct changes *changes, uint32_t lba, uint32_t sectors) {
    pages_add(&changes->written, lba, sectors);
}

void changes_zeroed(struct changes *changes, uint32_t lba, uint32_t sectors) {
    const uint64_t end = (uint64_t)lba + sectors, last = end / PAGE_SECTORS * PAGE_SECTORS;
    const uint64_t first = ((uint64_t)lba + PAGE_SECTORS - 1) / PAGE_SECTORS * PAGE_SECTORS;
    if (first >= last) {
        pages_add(&changes->written, lba, sectors);
        return;
    }
    pages_add(&changes->zeroed, (uint32_t)first, (uint32_t)(last - first));
    if (lba < first)
        pages_add(&changes->written, lba, 1);
    if (last < end)
        pages_add(&changes->written, (uint32_t)last, 1);
}

bool changes_are_none(const struct changes *changes) {
    return !changes->written.count && !changes->zeroed.count;
}

void changes_append(struct changes *changes, const struct changes *others) {
    pages_append(&changes->written, &others->written);
    pages_append(&changes->zeroed, &others->zeroed);
}

size_t changes_runs(const struct changes *changes) {
    return changes->written.count > changes->zeroed.count ? changes->written.count : changes->zeroed.count;
}

uint64_t changes_settle(struct changes *changes) {
    return pages_settle(&changes->written) + pages_settle(&changes->zeroed);
}

void changes_clear(struct changes *changes) {
    pages_clear(&changes->written);
    pages_clear(&changes->zeroed);
}

void changes_free(struct changes *changes) {
    pages_free(&changes->written);
    pages_free(&changes->zeroed);
}
