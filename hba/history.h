/* The journal of the queue behind the controller: it is handed to the record entry by entry, and trimmed at a size. Both a trim and a new part of
   the record need a queue without requests, so at times the device sends no more commands to the queue until those that are there have ended. */
#ifndef AHCI_HBA_HISTORY_H
#define AHCI_HBA_HISTORY_H

#include "pages.h"
#include "scribe.h"

#include <ahci.h>
#include <stdbool.h>
#include <stdint.h>

struct device;

struct history {
    struct scribe scribe;
    uint64_t seen;       /* the number of the journal's next entry that the record doesn't have */
    uint32_t owned;      /* tags that have a request by the entries so far, as bits */
    uint32_t failed_tag; /* whose command failed last */
    uint64_t bytes;      /* about how many the journal has */
};

/* Begins the record. It returns 0, or -1 once it has printed why. */
int history_begin(struct device *device);

/* Some sectors are about to become zeros: the record gets the pages of a large disk that they are in. */
void history_touch(struct device *device, uint32_t lba, uint32_t sectors);

/* Counts what the step of a slot's command has added to the journal. */
void history_count(struct device *device, uint32_t slot, uint8_t step);

/* Whether the last thing that the queue did was to fail the command of a slot, and with which entry. */
bool history_has_failed(struct device *device, uint32_t slot, ahci_entry *entry);

/* Hands what the queue has done since the last call to the record. If the journal was handed out (`entries` is not 0), by a reset that dropped
   commands or by a recovery, the record has that too. */
void history_follow(struct device *device, uint64_t entries, bool has_recovered);

/* The power is lost: what the sectors of these pages have then. The journal has ended; it goes on with that of a new controller once the record has the loss. */
void history_lose(struct device *device, const struct disk *left, const struct pages *pages);
void history_go_on(struct device *device);

/* Whether commands have to wait that are to be sent to the queue: `sends` are their slots. */
bool history_drains(const struct device *device, uint32_t sends);

/* Trims the journal. It returns false if the queue has a request. */
bool history_trim(struct device *device);

/* Trims the journal, or begins the record's next part, if that is due and the queue has no request. It returns false if the device takes no step before the
   part has begun. */
bool history_settle(struct device *device);

/* Whether the sectors are copied that the next part begins with; and copies some more. */
bool history_copies(const struct history *history);
void history_copy(struct history *history);

/* Whether the record has all that the queue has done. If not, the device waits for it. */
bool history_is_kept(struct history *history);
bool history_waits(const struct history *history);

/* A file that is readable once more of the record is written, -1 without a record; and takes that. */
int history_event(const struct history *history);
void history_take_event(struct history *history);

/* Ends the record. It returns 0, or -1 if it ended before its time. */
int history_end(struct history *history);

/* Begins the record of the disk that is there now, in another folder, after the one of the disk before has ended. It returns 0, or -1 once it has printed why. */
int history_begin_anew(struct device *device, const char *folder);

#endif
