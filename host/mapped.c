#include "mapped.h"

#include "journal.h"
#include "say.h"

#include <errno.h>
#include <fcntl.h>
#include <inttypes.h>
#include <limits.h>
#include <stdio.h>
#include <stdlib.h>
#include <string.h>
#include <sys/file.h>
#include <sys/mman.h>
#include <sys/stat.h>
#include <unistd.h>

void mapped_begin(struct mapped *mapped) {
    *mapped = (struct mapped){.file = -1};
}

static void unmap(struct mapped *mapped) {
    if (mapped->bytes)
        munmap((void *)(uintptr_t)mapped->bytes, mapped->length);
    mapped->bytes = NULL;
}

void mapped_end(struct mapped *mapped) {
    unmap(mapped);
    if (mapped->file >= 0)
        close(mapped->file);
    changes_free(&mapped->changes);
    image_end(&mapped->image);
    mapped_begin(mapped);
}

/* ---- names beside the image ---- */

/* FILE.journal, and where it is written until it is whole. */
struct names {
    char journal[PATH_MAX], next[PATH_MAX];
};

static int name(const struct image *image, struct names *names) {
    if (snprintf(names->journal, PATH_MAX, "%s.journal", image->path) < PATH_MAX && snprintf(names->next, PATH_MAX, "%s.journal.new", image->path) < PATH_MAX)
        return 0;
    say_of("image", image->path, "%s", strerror(ENAMETOOLONG));
    return -1;
}

/* ---- what a killed server has left ---- */

static int say_in_the_way(const struct mapped *mapped, const char *path) {
    say_of("image", mapped->image.path, "%s is in the way: a journal would have its name, and it is none", path);
    return -1;
}

/* Removes a file of a server that was killed, if it is there. */
static int discard(const struct mapped *mapped, const char *path) {
    struct journal journal;
    enum journal_state state;
    int why = journal_open(&journal, path, &state);
    journal_close(&journal);
    if (!why && state == JOURNAL_NONE)
        return 0;
    if (!why && state == JOURNAL_STRANGE)
        return say_in_the_way(mapped, path);
    if (why || unlink(path)) {
        say_of("image", mapped->image.path, "%s: %s", path, strerror(why ? why : errno));
        return -1;
    }
    say_of("image", mapped->image.path, "%s is removed, the beginning of a write-back that a killed server has not reached the end of: the image is as before it", path);
    return 0;
}

/* Writes a whole journal into the image that it is of. */
static int apply_left(struct mapped *mapped, const struct journal *journal, const char *path) {
    const char *image = mapped->image.path;
    uint64_t bytes = mapped->image.bytes;
    if (bytes != journal->before && bytes != journal->after) {
        say_of("image", image, "%s has %" PRIu64 " pages that a server was to write into it, but is of an image of %" PRIu64 " bytes, and this one has %" PRIu64
               ": keep it elsewhere or remove it", path, journal_pages(journal), journal->before, bytes);
        return -1;
    }
    int why = mapped->why_not ? mapped->why_not : journal_apply(journal, mapped->file);
    if (!why && unlink(path))
        why = errno;
    if (why) {
        say_of("image", image, "%s has %" PRIu64 " pages that a server was to write into it, and they can't be written: %s", path, journal_pages(journal), strerror(why));
        return -1;
    }
    image_sync_folder(image);
    mapped->image.bytes = journal->after;
    say_of("image", image, "%s had %" PRIu64 " pages that a killed server was writing back; they are in the image now", path, journal_pages(journal));
    return 0;
}

static int recover(struct mapped *mapped) {
    struct names names;
    struct journal journal;
    enum journal_state state;
    if (name(&mapped->image, &names) || discard(mapped, names.next))
        return -1;
    int why = journal_open(&journal, names.journal, &state);
    if (!why && state == JOURNAL_WHOLE) {
        int failed = apply_left(mapped, &journal, names.journal);
        journal_close(&journal);
        return failed;
    }
    journal_close(&journal);
    return discard(mapped, names.journal);
}

/* ---- the beginning ---- */

/* A file system without locks has none. */
static bool is_locked_elsewhere(int file) {
    return flock(file, LOCK_EX | LOCK_NB) && errno == EWOULDBLOCK;
}

int mapped_open(struct mapped *mapped) {
    struct stat found;
    const char *path = mapped->image.path;
    if (!path)
        return 0;
    mapped->file = open(path, O_RDWR | O_CLOEXEC);
    if (mapped->file < 0) {
        mapped->why_not = errno;
        mapped->file = open(path, O_RDONLY | O_CLOEXEC);
    }
    if (mapped->file < 0 || fstat(mapped->file, &found)) {
        say_of("image", path, "it can't be read: %m");
        return -1;
    }
    if (is_locked_elsewhere(mapped->file)) {
        say_of("image", path, "another server has it");
        return -1;
    }
    mapped->image.bytes = (uint64_t)found.st_size;
    return image_look_for_new(&mapped->image) || recover(mapped) ? -1 : 0;
}

/* How many of the file's bytes come before the hole at its end; all of them if there is none, or if the file system doesn't know. */
static uint64_t data_of(int file, uint64_t bytes) {
    uint64_t low = 0, high = (bytes + PAGE_BYTES - 1) / PAGE_BYTES; /* from page `high` on the file has no data */
    while (low < high) {
        const uint64_t middle = low + (high - low) / 2;
        if (lseek(file, (off_t)(middle * PAGE_BYTES), SEEK_DATA) < 0 && errno == ENXIO)
            high = middle;
        else
            low = middle + 1;
    }
    return high * PAGE_BYTES < bytes ? high * PAGE_BYTES : bytes;
}

/* The mapping's last page goes on with zeros behind the file's end, and so does the last sector. What a disk over the mapping has behind it is zeros
   without marks, so zeros that a guest makes there take no memory. */
int mapped_map(struct mapped *mapped) {
    struct image *image = &mapped->image;
    if (!image->path)
        return 0;
    unmap(mapped);
    mapped->length = (size_t)(data_of(mapped->file, image->bytes) + SECTOR_BYTES - 1) / SECTOR_BYTES * SECTOR_BYTES;
    if (image->bytes % SECTOR_BYTES)
        note_of("image", image->path, "%" PRIu64 " bytes are no whole sectors; the last one is filled up with zeros", image->bytes);
    if (!mapped->length)
        return 0;
    void *at = mmap(NULL, mapped->length, PROT_READ, MAP_PRIVATE, mapped->file, 0);
    if (at == MAP_FAILED) {
        say_of("image", image->path, "it can't be mapped: %m");
        return -1;
    }
    madvise(at, mapped->length, MADV_RANDOM); /* else the first write of a page would read as much around it as the file's disk reads ahead */
    mapped->bytes = at;
    return 0;
}

uint8_t *mapped_copy(const struct mapped *mapped, uint32_t sectors) {
    uint8_t *bytes = calloc(sectors, SECTOR_BYTES);
    if (!bytes)
        say("there is no memory for a disk of %" PRIu32 " sectors", sectors);
    else if (mapped->length)
        memcpy(bytes, mapped->bytes, mapped->length);
    return bytes;
}

/* ---- writing back ---- */

bool mapped_reserve(struct mapped *mapped, size_t calls) {
    return !mapped->image.path || changes_reserve(&mapped->changes, calls);
}

void mapped_wrote(struct mapped *mapped, uint32_t lba, uint32_t sectors) {
    if (mapped->image.path)
        changes_wrote(&mapped->changes, lba, sectors);
}

void mapped_zeroed(struct mapped *mapped, uint32_t lba, uint32_t sectors) {
    if (mapped->image.path)
        changes_zeroed(&mapped->changes, lba, sectors);
}

bool mapped_is_changed(const struct mapped *mapped) {
    return !changes_are_none(&mapped->changes);
}

/* Whether FILE is still the file of the start. */
static bool is_there(const struct mapped *mapped) {
    struct stat mine, found;
    return !fstat(mapped->file, &mine) && !stat(mapped->image.path, &found) && mine.st_dev == found.st_dev && mine.st_ino == found.st_ino;
}

/* Prints why nothing was written. It returns the reason. */
static int say_unwritten(const struct mapped *mapped, uint64_t pages, const char *of, int why) {
    const char *path = mapped->image.path;
    say_of("image", path, "it can't be written back: %s%s; %" PRIu64 " pages have changed, and %s%s", of, strerror(why), pages, mapped->has_journal ? path : "",
           mapped->has_journal ? ".journal has those of the write-back before" : "it is as it was");
    return why;
}

/* Prints why the image has not all pages, which the journal has. */
static int say_left(const struct mapped *mapped, uint64_t pages, const char *journal, const char *why) {
    say_of("image", mapped->image.path, "it can't be written back: %s; %s has the %" PRIu64 " pages, for the next write-back or the next server", why, journal, pages);
    return EIO;
}

/* Writes the journal, whole or not at all. One that is left by an earlier write-back has no other pages: they are still changed. */
static int write_journal(struct mapped *mapped, const struct disk *disk, const struct names *names, struct journal *journal, uint64_t pages) {
    char of[PATH_MAX + 3];
    int why = journal_write(journal, names->next, disk, &mapped->changes, mapped->image.bytes);
    if (!why && rename(names->next, names->journal)) {
        why = errno;
        journal_close(journal);
        unlink(names->next);
    }
    snprintf(of, sizeof of, "%s: ", names->next);
    if (why)
        return say_unwritten(mapped, pages, of, why);
    mapped->has_journal = true;
    why = image_sync_folder(mapped->image.path);
    return why ? say_left(mapped, pages, names->journal, strerror(why)) : 0;
}

/* Writes the journal's pages into the image, and removes the journal. */
static int write_pages(struct mapped *mapped, const struct names *names, const struct journal *journal) {
    char text[100];
    struct stat found;
    int why = fstat(mapped->file, &found) ? errno : 0;
    if (!why && (uint64_t)found.st_size < mapped->image.bytes) {
        snprintf(text, sizeof text, "it has become shorter, %" PRIu64 " bytes instead of %" PRIu64, (uint64_t)found.st_size, mapped->image.bytes);
        return say_left(mapped, journal_pages(journal), names->journal, text);
    }
    why = why ? why : journal_apply(journal, mapped->file);
    if (!why && unlink(names->journal))
        why = errno;
    if (why)
        return say_left(mapped, journal_pages(journal), names->journal, strerror(why));
    image_sync_folder(mapped->image.path);
    mapped->has_journal = false;
    mapped->image.bytes = journal->after;
    changes_clear(&mapped->changes);
    return 0;
}

int mapped_write(struct mapped *mapped, const struct disk *disk) {
    struct names names;
    struct journal journal;
    if (!mapped_is_changed(mapped))
        return 0;
    if (name(&mapped->image, &names))
        return ENAMETOOLONG;
    uint64_t pages = changes_settle(&mapped->changes);
    if (mapped->why_not)
        return say_unwritten(mapped, pages, "", mapped->why_not);
    if (!is_there(mapped)) {
        say_of("image", mapped->image.path, "it can't be written back: this is no longer the file of the start; %" PRIu64 " pages have changed, and are not written", pages);
        return EIO;
    }
    int why = write_journal(mapped, disk, &names, &journal, pages);
    if (!why)
        why = write_pages(mapped, &names, &journal);
    journal_close(&journal);
    return why;
}
