/* The record, written by a thread. The device puts entries together in memory and goes on; what answers the guest waits until they are written, and
   registers do not. */
#ifndef AHCI_HBA_SCRIBE_H
#define AHCI_HBA_SCRIBE_H

#include "copying.h"
#include "record.h"
#include "worker.h"

#include <stdbool.h>
#include <stddef.h>
#include <stdint.h>

/* Entries with the bytes behind them, as the record has them. */
struct batch {
    uint8_t *bytes;
    size_t count, room;
    uint64_t entries;
};

struct scribe {
    struct record record; /* the thread's while it is busy; but `touched` is the device's, except while the thread begins a part, for which the device waits */
    struct batch filling; /* what the device has put together since */
    struct batch taken;   /* what the thread writes, or has written */
    struct copying part;  /* the sectors that the next part begins with */
    uint64_t base;        /* the bytes of the part, without both batches */
    bool is_on;           /* there is a record, and it has not ended */
    bool is_copying;      /* the sectors are copied */
    bool begins_part;     /* the thread begins the next part once it has written what it was given */
    bool lacks_memory;    /* for the next entry, so that the record ends */
    bool ends;            /* the thread ends the record once it has written what it was given */
    bool is_busy;         /* the thread was given something, and its end was not taken */
    bool waits;           /* the device waits for it */
    struct worker worker; /* there is none without a record */
};

/* Begins the record, and the thread; with no folder nothing is recorded. It returns 0, or -1 once it has printed why. */
int scribe_begin(struct scribe *scribe, const char *folder, uint64_t limit, const struct disk *disk, uint32_t depth);

/* Appends an entry, and gives it the time of now. The answer is where its `bytes` bytes belong that come behind it; NULL if the record has ended, also for
   lack of memory. */
uint8_t *scribe_put(struct scribe *scribe, struct record_entry entry, size_t bytes);

/* Appends the pages of a large disk that a command touches first, before it changes them: they are read now. It returns false if the record has ended. */
bool scribe_touch(struct scribe *scribe, const struct disk *disk, uint64_t lba, uint32_t sectors);

/* scribe_touch and scribe_put of a command that can't have changed the disk yet. */
uint8_t *scribe_put_command(struct scribe *scribe, const struct disk *disk, struct record_entry entry, size_t bytes);

/* Gives the thread what there is, if it is idle and there is much, or if it `must` be written soon. */
void scribe_hand_over(struct scribe *scribe, bool must);

/* Whether all is written that was put. If not, the device waits. */
bool scribe_is_kept(struct scribe *scribe);

/* Whether a command that adds so many bytes (record_bytes_of) has room in the part. */
bool scribe_has_room(const struct scribe *scribe, uint64_t bytes);

/* Begins the next part with the sectors of a disk, which stay as they are while scribe_copy copies them; that of a large disk begins with none. Or waits for the thread
   first, and is called again. It returns false if there is no memory now. */
bool scribe_next_part(struct scribe *scribe, const struct disk *disk);
void scribe_copy(struct scribe *scribe);

/* The disk has changed meanwhile: the copy begins anew. */
void scribe_copy_anew(struct scribe *scribe);

/* Takes what the thread has done. */
void scribe_take(struct scribe *scribe);

/* Writes what there is, and ends the record. It returns 0, or -1 if the record has ended before. */
int scribe_end(struct scribe *scribe);

#endif
