/* The record: a folder of parts, each of which has all that happens and the sectors that this needs. `stretch` reads it. What a client or a guest has
   its answer for is in the record by then, so a killed server loses nothing of it.

   A part has a header of 64 bytes and then entries of 24 bytes, some with bytes of their own behind them; all numbers have their low byte
   first. A part of a disk of at most MOST_SECTORS sectors begins with all of them as they are then, those of zeros left out (RECORD_SECTORS). A part of a larger disk
   begins with none: before the first command of the part that touches a page of 8 sectors it has that page as the part found it, zeros left out. So the sectors that
   a part's commands name are in the part, and no others. A page of which no sector comes before such a command is all zeros. */
#ifndef AHCI_HOST_RECORD_H
#define AHCI_HOST_RECORD_H

#include "disk.h"
#include "touched.h"

#include <stdbool.h>
#include <stddef.h>
#include <stdint.h>
#include <sys/uio.h>

/* What an entry says. The numbers stay as they are: records are kept. */
enum record_kind {
    RECORD_SECTORS = 0,   /* sectors as the part found them, 64 at most and none of zeros: lba, count, and their bytes behind it. It has no number */
    RECORD_READ = 1,      /* a command is issued: tag, lba, count */
    RECORD_WRITE = 2,     /* the same, its bytes behind it; `flag` is 1 for FUA */
    RECORD_ACCEPT = 3,    /* tag; a command that passes the last sector fails then */
    RECORD_SERVE = 4,     /* count tags are completed, a byte each behind it, filled up to a multiple of 8 */
    RECORD_FAIL = 5,      /* tag, error (in `flag`), lba */
    RECORD_RECOVER = 6,
    RECORD_REISSUE = 7,   /* tag */
    RECORD_COLLECT = 8,   /* tag */
    RECORD_FLUSH = 9,
    RECORD_TRIM = 10,
    RECORD_RESET = 11,    /* all commands that are outstanding are dropped, an error that stood is over, and the sectors stay as they are */
    RECORD_IDENTIFY = 12, /* IDENTIFY DEVICE was carried out */
    RECORD_READ_LOG = 13, /* READ LOG EXT was carried out by itself */
    RECORD_LOSS = 14,     /* the disk loses its power: as RECORD_RESET, and the sectors of the RECORD_LEFT that follow are others from here on */
    RECORD_LEFT = 15,     /* sectors that writes before a loss have touched, as it has left them, 64 at most: lba, count, and their bytes behind it */
    RECORD_ZERO = 16      /* DATA SET MANAGEMENT has made sectors zeros: lba, count */
};

struct record_entry {
    uint8_t kind; /* record_kind */
    uint8_t tag;
    uint8_t flag;
    uint8_t zero;
    uint32_t count;
    uint64_t lba;
    uint64_t time; /* microseconds since 1970 */
};

#define RECORD_TAGS 8    /* the tags behind an entry fill up as many bytes */
#define RECORD_GROUP 512 /* entries that are written at once, at most */

struct record {
    const char *folder; /* NULL if nothing is recorded */
    int file;           /* the part's, or -1 */
    bool has_failed;    /* the record has ended before its time */
    struct disk disk;
    uint32_t depth;
    uint64_t limit;   /* bytes of the whole record; 0: no limit */
    uint64_t parts;   /* how many were begun */
    uint64_t entries; /* how many there were in all, those of dropped parts too, and RECORD_SECTORS not */
    uint64_t bytes;   /* those of the part, without the group */
    struct touched touched; /* the pages of a large disk that the part has */
    /* the group: what happened since the last record_sync */
    uint64_t time;
    uint64_t group_bytes;
    unsigned group, pieces;
    unsigned numbered; /* entries of it that have a number */
    uint8_t *old;      /* of a large disk: room for the bytes of sectors that commands touch first */
    size_t old_bytes;
    struct record_entry at[RECORD_GROUP];
    struct iovec piece[2 * RECORD_GROUP];
    uint8_t tags[RECORD_GROUP][MOST_SLOTS];
};

/* The time of an entry that happens now. */
uint64_t record_now(void);

/* How many bytes a command of so many sectors adds to a part at most, without its answer: a write's own, and what its pages have if the disk is large. */
uint64_t record_bytes_of(uint32_t disk_sectors, bool writes, uint32_t sectors);

/* The smallest limit for a disk of so many sectors whose commands have at most so many. */
uint64_t record_least_limit(uint32_t sectors, uint32_t most_count);

/* Begins the record with the first part; with no folder nothing is recorded. It returns 0, or -1 once it has printed why. */
int record_begin(struct record *record, const char *folder, uint64_t limit, const struct disk *disk, uint32_t depth);

/* Whether a command of so many bytes has room in the part. If not, the caller waits until every slot is free, and begins the next part. */
bool record_has_room(const struct record *record, uint64_t bytes);

/* The most bytes of a part with which no command is refused room. */
uint64_t record_room(const struct record *record);
void record_next_part(struct record *record);

/* Append an entry to the group. A write's bytes stay the caller's, and stay as they are until record_sync. A command is appended before it can change
   the disk, which is read if it is large. */
void record_command(struct record *record, bool writes, uint32_t tag, uint64_t lba, uint32_t sectors, bool fua, const uint8_t *bytes);
void record_tag(struct record *record, enum record_kind kind, uint32_t tag);
void record_served(struct record *record, const uint8_t *tags, uint32_t count);
void record_failed(struct record *record, uint32_t tag, uint8_t error, uint64_t lba);

/* Writes entries that were put together elsewhere, with the bytes behind them, as the record has them: all of them, or none. `entries` of them have a number. */
void record_put(struct record *record, const uint8_t *bytes, size_t count, uint64_t entries);

/* Writes the group. If it can't be written, the record ends with the entry before the group, and the reason is printed once. */
void record_sync(struct record *record);

/* Ends the record before its time, and prints why. */
void record_give_up(struct record *record, const char *why);

/* Writes the group, and closes the part. It returns 0, or -1 if the record has ended before. */
int record_end(struct record *record);

#endif
