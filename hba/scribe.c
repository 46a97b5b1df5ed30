#include "scribe.h"

#include "say.h"

#include <errno.h>
#include <stdlib.h>
#include <string.h>

#define LARGE ((size_t)1 << 20)         /* bytes of entries that the thread is given before an answer waits for them */
#define MOST_WAITING ((size_t)64 << 20) /* bytes of entries that may wait; before there are more, the device waits */

/* ---- the thread ---- */

/* Does what the thread was given. */
static void do_work(void *of) {
    struct scribe *scribe = of;
    struct record *record = &scribe->record;
    record_put(record, scribe->taken.bytes, scribe->taken.count, scribe->taken.entries);
    if (scribe->ends && record->file >= 0)
        record_give_up(record, "there is no memory for the next entry");
    if (!scribe->begins_part)
        return;
    if (scribe->part.sectors)
        record->disk = copying_disk(&scribe->part);
    record_next_part(record);
}

/* ---- entries ---- */

/* Makes room behind the entries of a batch. */
static bool make_room(struct batch *batch, size_t count) {
    size_t room = batch->room ? batch->room : LARGE;
    if (batch->room - batch->count >= count)
        return true;
    while (room - batch->count < count)
        room *= 2;
    uint8_t *bytes = realloc(batch->bytes, room);
    if (!bytes)
        return false;
    batch->bytes = bytes;
    batch->room = room;
    return true;
}

uint8_t *scribe_put(struct scribe *scribe, struct record_entry entry, size_t bytes) {
    struct batch *batch = &scribe->filling;
    if (!scribe->is_on)
        return NULL;
    if (!make_room(batch, sizeof entry + bytes)) {
        scribe->is_on = false;
        scribe->lacks_memory = true;
        return NULL;
    }
    entry.time = record_now();
    memcpy(batch->bytes + batch->count, &entry, sizeof entry);
    uint8_t *behind = batch->bytes + batch->count + sizeof entry;
    batch->count += sizeof entry + bytes;
    batch->entries += entry.kind != RECORD_SECTORS;
    return behind;
}

/* Appends sectors that a command touches first. */
static int put_old(void *it, uint32_t lba, uint32_t count, const uint8_t *bytes) {
    const struct record_entry entry = {.kind = RECORD_SECTORS, .count = count, .lba = lba};
    uint8_t *behind = scribe_put(it, entry, (size_t)count * SECTOR_BYTES);
    if (!behind)
        return -1;
    memcpy(behind, bytes, (size_t)count * SECTOR_BYTES);
    return 0;
}

bool scribe_touch(struct scribe *scribe, const struct disk *disk, uint64_t lba, uint32_t sectors) {
    return scribe->is_on && !touched_take(&scribe->record.touched, disk, lba, sectors, put_old, scribe);
}

uint8_t *scribe_put_command(struct scribe *scribe, const struct disk *disk, struct record_entry entry, size_t bytes) {
    return scribe_touch(scribe, disk, entry.lba, entry.count) ? scribe_put(scribe, entry, bytes) : NULL;
}

static bool has_more(const struct scribe *scribe) {
    return scribe->filling.count || (scribe->lacks_memory && scribe->record.file >= 0);
}

/* Gives the thread, which is idle, what there is. */
static void give(struct scribe *scribe) {
    struct batch other = scribe->taken;
    scribe->taken = scribe->filling;
    scribe->filling = (struct batch){.bytes = other.bytes, .room = other.room};
    scribe->ends = scribe->lacks_memory;
    scribe->is_busy = true;
    worker_give(&scribe->worker);
}

void scribe_hand_over(struct scribe *scribe, bool must) {
    if (scribe->taken.count + scribe->filling.count > MOST_WAITING)
        scribe->waits = true;
    if (!scribe->is_busy && !scribe->is_copying && has_more(scribe) && (must || scribe->waits || scribe->filling.count > LARGE))
        give(scribe);
}

bool scribe_is_kept(struct scribe *scribe) {
    if (!scribe->is_busy && !has_more(scribe))
        return true;
    scribe->waits = true;
    scribe_hand_over(scribe, true);
    return false;
}

void scribe_take(struct scribe *scribe) {
    if (!worker_take(&scribe->worker))
        return;
    scribe->is_busy = false;
    scribe->taken.count = 0;
    scribe->base = scribe->record.bytes;
    if (scribe->begins_part)
        copying_end(&scribe->part);
    scribe->begins_part = false;
    if (scribe->record.file < 0) {
        scribe->is_on = false;
        scribe->filling.count = scribe->filling.entries = 0;
    }
    scribe->waits = scribe->waits && has_more(scribe);
    scribe_hand_over(scribe, scribe->waits);
}

/* ---- parts ---- */

bool scribe_has_room(const struct scribe *scribe, uint64_t bytes) {
    return !scribe->is_on || scribe->base + scribe->taken.count + scribe->filling.count + bytes <= record_room(&scribe->record);
}

/* Lets the thread, which is idle, begin the part. */
static void give_part(struct scribe *scribe) {
    scribe->is_copying = false;
    scribe->begins_part = scribe->waits = true;
    give(scribe);
}

bool scribe_next_part(struct scribe *scribe, const struct disk *disk) {
    scribe->waits = scribe->is_busy;
    if (scribe->is_busy)
        return true;
    if (scribe->record.touched.bits)
        give_part(scribe);
    else
        scribe->is_copying = copying_begin(&scribe->part, disk);
    return scribe->waits || scribe->is_copying;
}

void scribe_copy(struct scribe *scribe) {
    if (copying_go_on(&scribe->part))
        give_part(scribe);
}

void scribe_copy_anew(struct scribe *scribe) {
    if (scribe->is_copying)
        copying_begin(&scribe->part, scribe->part.disk); /* it has its memory */
}

/* ---- beginning and end ---- */

int scribe_begin(struct scribe *scribe, const char *folder, uint64_t limit, const struct disk *disk, uint32_t depth) {
    *scribe = (struct scribe){.worker = worker_none()};
    if (record_begin(&scribe->record, folder, limit, disk, depth))
        return -1;
    if (!folder)
        return 0;
    scribe->base = scribe->record.bytes;
    errno = worker_start(&scribe->worker, do_work, scribe);
    scribe->is_on = errno == 0;
    if (scribe->is_on)
        return 0;
    say_of("record", folder, "%m");
    record_end(&scribe->record);
    return -1;
}

/* Waits for the thread, and writes what it was not given. */
static void take_over(struct scribe *scribe) {
    worker_end(&scribe->worker);
    free(scribe->taken.bytes);
    scribe->taken = scribe->filling;
    scribe->begins_part = false;
    scribe->ends = scribe->lacks_memory;
    do_work(scribe);
    free(scribe->taken.bytes);
    copying_end(&scribe->part);
}

int scribe_end(struct scribe *scribe) {
    if (scribe->worker.is_there)
        take_over(scribe);
    return record_end(&scribe->record);
}
