#include "writeback.h"

void writeback_begin(struct writeback *writeback, struct mapped *mapped, const struct disk *disk) {
    *writeback = (struct writeback){.mapped = mapped, .disk = disk, .worker = worker_none()};
}

/* ---- the thread ---- */

static void write_copy(void *of) {
    struct writeback *writeback = of;
    const struct disk disk = page_copy_disk(&writeback->copy);
    writeback->failed = mapped_write(&writeback->taken, &disk);
}

/* ---- the device's side ---- */

bool writeback_reserve(const struct writeback *writeback) {
    return mapped_reserve(writeback->mapped, 1 + (writeback->state == WRITEBACK_NONE ? 0 : writeback->runs));
}

/* Pages that are written from here on may be in the copy, and belong to the next write-back. */
static void take_pages(struct writeback *writeback) {
    writeback->taken = *writeback->mapped;
    writeback->mapped->changes = writeback->spare;
    writeback->spare = (struct changes){0};
    writeback->runs = changes_runs(&writeback->taken.changes);
    writeback->state = WRITEBACK_COPIES;
}

/* Gives back what the thread had; pages that are not written back are changed again. */
static void give_back(struct writeback *writeback, bool is_written) {
    struct mapped *mapped = writeback->mapped;
    mapped->has_journal = writeback->taken.has_journal;
    mapped->image.bytes = writeback->taken.image.bytes;
    writeback->spare = writeback->taken.changes;
    if (!is_written)
        changes_append(&mapped->changes, &writeback->spare);
    changes_clear(&writeback->spare);
    page_copy_end(&writeback->copy);
    writeback->state = WRITEBACK_NONE;
}

bool writeback_start(struct writeback *writeback) {
    struct mapped *mapped = writeback->mapped;
    changes_settle(&mapped->changes);
    if (!writeback->worker.is_there && worker_start(&writeback->worker, write_copy, writeback))
        return false;
    const uint64_t pages = pages_count(&mapped->changes.written);
    if (!changes_reserve(&writeback->spare, changes_runs(&mapped->changes)) || !page_copy_begin(&writeback->copy, writeback->disk, &writeback->taken.changes.written, pages))
        return false;
    take_pages(writeback);
    return true;
}

void writeback_copy(struct writeback *writeback) {
    if (!page_copy_go_on(&writeback->copy))
        return;
    writeback->state = WRITEBACK_WRITES;
    worker_give(&writeback->worker);
}

bool writeback_take(struct writeback *writeback, int *failed) {
    if (!worker_take(&writeback->worker))
        return false;
    *failed = writeback->failed;
    give_back(writeback, !*failed);
    return true;
}

void writeback_end(struct writeback *writeback) {
    worker_end(&writeback->worker);
    if (writeback->state != WRITEBACK_NONE)
        give_back(writeback, writeback->state == WRITEBACK_WRITES && !writeback->failed);
    changes_free(&writeback->spare);
}
