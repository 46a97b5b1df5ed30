#include "record.h"

#include "say.h"

#include <dirent.h>
#include <errno.h>
#include <fcntl.h>
#include <inttypes.h>
#include <limits.h>
#include <stdio.h>
#include <stdlib.h>
#include <string.h>
#include <sys/stat.h>
#include <time.h>
#include <unistd.h>

#define HEADER 64                  /* bytes of a part's header */
#define PART (UINT64_C(512) << 20) /* bytes of a part, if there is no limit */
#define SPARE (UINT64_C(1) << 20)  /* for the entries of the commands that are outstanding, and of a snapshot */
#define OLD_ROOM ((size_t)1 << 20) /* bytes of old sectors that a group has at most */

static const char magic[8] = "ahcirec1";

/* The header of a part, in the order of its bytes. */
struct part_header {
    char magic[8];
    uint32_t sectors, depth;
    uint64_t first; /* the number of its first entry, without its snapshot: entries are counted from the record's beginning */
    uint64_t time;
    uint64_t zeros[4];
};
_Static_assert(sizeof(struct part_header) == HEADER && sizeof(struct record_entry) == 24, "the record's format");
_Static_assert(__BYTE_ORDER__ == __ORDER_LITTLE_ENDIAN__, "the record's numbers have their low byte first");

uint64_t record_now(void) {
    struct timespec time;
    clock_gettime(CLOCK_REALTIME, &time);
    return (uint64_t)time.tv_sec * 1000000 + (uint64_t)time.tv_nsec / 1000;
}

uint64_t record_room(const struct record *record) {
    return (record->limit ? record->limit / 2 : PART) - SPARE;
}

uint64_t record_bytes_of(uint32_t disk_sectors, bool writes, uint32_t sectors) {
    return touched_most(disk_sectors, sectors, sizeof(struct record_entry)) + (writes ? (uint64_t)sectors * SECTOR_BYTES : 0);
}

uint64_t record_least_limit(uint32_t sectors, uint32_t most_count) {
    uint64_t snapshot = sectors > MOST_SECTORS ? 0 : (uint64_t)sectors * SECTOR_BYTES;
    return 2 * (snapshot + record_bytes_of(sectors, true, most_count) + 2 * SPARE);
}

static bool part_path(const struct record *record, uint64_t number, char *path) {
    return snprintf(path, PATH_MAX, "%s/part.%06" PRIu64, record->folder, number) < PATH_MAX;
}

static void close_part(struct record *record) {
    if (record->file >= 0)
        close(record->file);
    record->file = -1;
}

void record_give_up(struct record *record, const char *why) {
    say_of("record", record->folder, "%s; the record ends after %" PRIu64 " entries", why, record->entries);
    record->has_failed = true;
    close_part(record);
}

/* Ends it for the reason of errno. */
static void give_up(struct record *record, const char *what) {
    char why[200];
    snprintf(why, sizeof why, "%s: %s", what, strerror(errno));
    record_give_up(record, why);
}

/* Writes all of the pieces, which it uses up. */
static int write_pieces(int file, struct iovec *piece, unsigned count) {
    while (count) {
        ssize_t wrote = writev(file, piece, count < IOV_MAX ? (int)count : IOV_MAX);
        if (wrote < 0 && errno == EINTR)
            continue;
        if (wrote < 0)
            return -1;
        while (count && (size_t)wrote >= piece->iov_len) {
            wrote -= (ssize_t)piece->iov_len;
            piece++;
            count--;
        }
        if (count) {
            piece->iov_base = (char *)piece->iov_base + wrote;
            piece->iov_len -= (size_t)wrote;
        }
    }
    return 0;
}

static void clear_group(struct record *record) {
    record->group = 0;
    record->numbered = 0;
    record->pieces = 0;
    record->old_bytes = 0;
    record->group_bytes = 0;
    record->time = 0;
}

/* Writes whole entries, all of them or none. */
static void write_entries(struct record *record, struct iovec *piece, unsigned pieces, uint64_t bytes, uint64_t entries) {
    if (write_pieces(record->file, piece, pieces)) {
        int why = errno;
        if (ftruncate(record->file, (off_t)record->bytes))
            say_of("record", record->folder, "its last entry is cut: %m");
        errno = why;
        give_up(record, "it can't be written");
        return;
    }
    record->bytes += bytes;
    record->entries += entries;
}

void record_sync(struct record *record) {
    if (record->file >= 0 && record->group)
        write_entries(record, record->piece, record->pieces, record->group_bytes, record->numbered);
    clear_group(record);
}

void record_put(struct record *record, const uint8_t *bytes, size_t count, uint64_t entries) {
    struct iovec piece = {.iov_base = (void *)(uintptr_t)bytes, .iov_len = count};
    record_sync(record);
    if (record->file >= 0 && count)
        write_entries(record, &piece, 1, count, entries);
}

static void add_piece(struct record *record, const void *bytes, size_t count) {
    record->piece[record->pieces++] = (struct iovec){.iov_base = (void *)(uintptr_t)bytes, .iov_len = count};
    record->group_bytes += count;
}

/* Appends an entry to the group, which is written first if it is full. */
static struct record_entry *add(struct record *record, enum record_kind kind) {
    if (record->group == RECORD_GROUP)
        record_sync(record);
    if (!record->time)
        record->time = record_now();
    struct record_entry *entry = &record->at[record->group++];
    *entry = (struct record_entry){.kind = (uint8_t)kind, .time = record->time};
    record->numbered += kind != RECORD_SECTORS;
    add_piece(record, entry, sizeof *entry);
    return entry;
}

/* Appends sectors that a command touches first. The group gets a copy of their bytes, since they are the disk's. */
static int add_old(void *it, uint32_t lba, uint32_t count, const uint8_t *bytes) {
    struct record *record = it;
    size_t size = (size_t)count * SECTOR_BYTES;
    if (record->old_bytes + size > OLD_ROOM)
        record_sync(record);
    struct record_entry *entry = add(record, RECORD_SECTORS);
    entry->count = count;
    entry->lba = lba;
    memcpy(record->old + record->old_bytes, bytes, size);
    add_piece(record, record->old + record->old_bytes, size);
    record->old_bytes += size;
    return 0;
}

void record_command(struct record *record, bool writes, uint32_t tag, uint64_t lba, uint32_t sectors, bool fua, const uint8_t *bytes) {
    if (record->file < 0)
        return;
    touched_take(&record->touched, &record->disk, lba, sectors, add_old, record);
    struct record_entry *entry = add(record, writes ? RECORD_WRITE : RECORD_READ);
    entry->tag = (uint8_t)tag;
    entry->flag = fua;
    entry->count = sectors;
    entry->lba = lba;
    if (writes)
        add_piece(record, bytes, (size_t)sectors * SECTOR_BYTES);
}

void record_tag(struct record *record, enum record_kind kind, uint32_t tag) {
    if (record->file >= 0)
        add(record, kind)->tag = (uint8_t)tag;
}

void record_served(struct record *record, const uint8_t *tags, uint32_t count) {
    if (record->file < 0)
        return;
    struct record_entry *entry = add(record, RECORD_SERVE);
    uint8_t *copy = record->tags[entry - record->at];
    entry->count = count;
    memset(copy, 0, MOST_SLOTS);
    memcpy(copy, tags, count);
    add_piece(record, copy, (count + RECORD_TAGS - 1) / RECORD_TAGS * RECORD_TAGS);
}

void record_failed(struct record *record, uint32_t tag, uint8_t error, uint64_t lba) {
    if (record->file < 0)
        return;
    struct record_entry *entry = add(record, RECORD_FAIL);
    entry->tag = (uint8_t)tag;
    entry->flag = error;
    entry->lba = lba;
}

bool record_has_room(const struct record *record, uint64_t bytes) {
    return record->file < 0 || record->bytes + record->group_bytes + bytes <= record_room(record);
}

/* Writes a run of sectors of the snapshot. */
static int put_run(void *it, uint32_t lba, uint32_t count, const uint8_t *bytes) {
    struct record *record = it;
    struct record_entry entry = {.kind = RECORD_SECTORS, .count = count, .lba = lba, .time = record_now()};
    struct iovec pieces[] = {{.iov_base = &entry, .iov_len = sizeof entry}, {.iov_base = (void *)(uintptr_t)bytes, .iov_len = (size_t)count * SECTOR_BYTES}};
    record->bytes += sizeof entry + (uint64_t)count * SECTOR_BYTES;
    return write_pieces(record->file, pieces, 2);
}

/* Writes the sectors as they are. A part of a large disk begins with none. */
static int put_snapshot(struct record *record) {
    return record->touched.bits ? 0 : sectors_take(&record->disk, 0, record->disk.sectors, put_run, record);
}

/* Begins a part with its header and its snapshot. */
static int begin_part(struct record *record) {
    char path[PATH_MAX];
    struct part_header header = {.sectors = record->disk.sectors, .depth = record->depth, .first = record->entries, .time = record_now()};
    struct iovec piece = {.iov_base = &header, .iov_len = sizeof header};
    memcpy(header.magic, magic, sizeof magic);
    errno = ENAMETOOLONG;
    if (!part_path(record, ++record->parts, path))
        return -1;
    record->bytes = HEADER;
    record->file = open(path, O_WRONLY | O_CREAT | O_EXCL | O_CLOEXEC, 0666);
    if (record->file < 0)
        return -1;
    if (!write_pieces(record->file, &piece, 1) && !put_snapshot(record))
        return 0;
    int why = errno;
    unlink(path);
    errno = why;
    return -1;
}

void record_next_part(struct record *record) {
    char path[PATH_MAX];
    record_sync(record);
    if (record->file < 0)
        return;
    close_part(record);
    touched_clear(&record->touched);
    if (record->limit && record->parts > 1 && part_path(record, record->parts - 1, path))
        unlink(path);
    if (begin_part(record))
        give_up(record, "its next part can't be written");
}

/* What a folder has. */
enum content { CONTENT_NONE, CONTENT_FILES, CONTENT_RECORD };

/* The content of a folder; -1 if it can't be read. */
static int content_of(const char *folder) {
    DIR *found = opendir(folder);
    int has = CONTENT_NONE;
    if (!found)
        return -1;
    for (struct dirent *it = readdir(found); it && has != CONTENT_RECORD; it = readdir(found))
        if (!strncmp(it->d_name, "part.", 5))
            has = CONTENT_RECORD;
        else if (strcmp(it->d_name, ".") && strcmp(it->d_name, ".."))
            has = CONTENT_FILES;
    closedir(found);
    return has;
}

/* What a large disk needs. */
static int take_memory(struct record *record) {
    if (touched_begin(&record->touched, record->disk.sectors))
        return -1;
    record->old = record->touched.bits ? malloc(OLD_ROOM) : NULL;
    return record->touched.bits && !record->old ? -1 : 0;
}

static void give_memory_back(struct record *record) {
    touched_end(&record->touched);
    free(record->old);
    record->old = NULL;
}

int record_begin(struct record *record, const char *folder, uint64_t limit, const struct disk *disk, uint32_t depth) {
    *record = (struct record){.folder = folder, .limit = limit, .file = -1, .disk = *disk, .depth = depth};
    if (!folder)
        return 0;
    int has = mkdir(folder, 0777) && errno != EEXIST ? -1 : content_of(folder);
    if (has == CONTENT_RECORD || has == CONTENT_FILES) {
        say_of("record", folder, has == CONTENT_RECORD ? "the folder has a record already; remove it, or name another folder"
                                                       : "the folder has other files; name an empty one, or one that isn't there");
        return -1;
    }
    if (has == CONTENT_NONE && !take_memory(record) && !begin_part(record))
        return 0;
    say_of("record", folder, "%m");
    close_part(record);
    give_memory_back(record);
    return -1;
}

int record_end(struct record *record) {
    record_sync(record);
    close_part(record);
    give_memory_back(record);
    return record->has_failed ? -1 : 0;
}
