#include "journal.h"

#include <errno.h>
#include <fcntl.h>
#include <stdbool.h>
#include <string.h>
#include <sys/stat.h>
#include <unistd.h>

#define CHUNK (16 * PAGE_BYTES) /* bytes that are read or written at once */
#define RUNS 512                /* runs that are read at once */

#define MAGIC 8 /* bytes of it */

static const char magic[MAGIC] = "AHCIJRN1", magic_of_zeros[MAGIC] = "AHCIJRN2"; /* with runs of zeros: a server that doesn't know these takes it for a strange file */

struct header {
    char magic[MAGIC];
    uint64_t before, after, runs, pages, zero_runs, zero_pages;
    uint64_t rest; /* zeros */
};

/* Where the runs of a kind end, and the bytes of the pages begin. */
static uint64_t runs_end(uint64_t runs) {
    return sizeof(struct header) + runs * sizeof(struct page_run);
}

static uint64_t pages_at(const struct journal *journal) {
    return (runs_end(journal->runs + journal->zero_runs) + PAGE_BYTES - 1) / PAGE_BYTES * PAGE_BYTES;
}

static uint64_t sum_at(const struct journal *journal) {
    return pages_at(journal) + journal->pages * PAGE_BYTES;
}

uint64_t journal_pages(const struct journal *journal) {
    return journal->pages + journal->zero_pages;
}

/* Goes on with the sum of whole words: each changes all that come after it. */
static uint64_t sum_of(uint64_t sum, const uint8_t *bytes, size_t count) {
    for (size_t at = 0; at < count; at += sizeof sum) {
        uint64_t word;
        memcpy(&word, bytes + at, sizeof word);
        sum = (sum ^ word) * UINT64_C(0x9e3779b97f4a7c15);
        sum ^= sum >> 32;
    }
    return sum;
}

static bool is_blank(const uint8_t *bytes, size_t count) {
    return !bytes[0] && !memcmp(bytes, bytes + 1, count - 1);
}

static int write_at(int file, const void *from, size_t count, uint64_t at) {
    const uint8_t *bytes = from;
    while (count) {
        ssize_t wrote = pwrite(file, bytes, count, (off_t)at);
        if (wrote < 0 && errno == EINTR)
            continue;
        if (wrote < 0)
            return errno;
        bytes += wrote;
        count -= (size_t)wrote;
        at += (uint64_t)wrote;
    }
    return 0;
}

/* Reads all of the bytes; EIO if the file has fewer. */
static int read_at(int file, void *to, size_t count, uint64_t at) {
    uint8_t *bytes = to;
    while (count) {
        ssize_t found = pread(file, bytes, count, (off_t)at);
        if (found < 0 && errno == EINTR)
            continue;
        if (found <= 0)
            return found ? errno : EIO;
        bytes += found;
        count -= (size_t)found;
        at += (uint64_t)found;
    }
    return 0;
}

/* ---- writing one ---- */

struct writer {
    int file, why; /* an errno, after which nothing is written */
    uint64_t at, sum;
    size_t used;
    uint8_t bytes[CHUNK];
};

static void drain(struct writer *to) {
    if (!to->used || to->why)
        return;
    to->sum = sum_of(to->sum, to->bytes, to->used);
    if (!is_blank(to->bytes, to->used)) /* else it is a hole */
        to->why = write_at(to->file, to->bytes, to->used, to->at);
    to->at += to->used;
    to->used = 0;
}

/* Room for the next bytes, at most PAGE_BYTES. */
static uint8_t *room_for(struct writer *to, size_t count) {
    if (to->used + count > sizeof to->bytes)
        drain(to);
    uint8_t *at = to->bytes + (to->why ? 0 : to->used);
    to->used = (size_t)(at - to->bytes) + count;
    return at;
}

static void put_runs(struct writer *to, const struct pages *pages) {
    for (size_t i = 0; i < pages->count; i++)
        memcpy(room_for(to, sizeof(struct page_run)), &pages->runs[i], sizeof(struct page_run));
}

static void put_header(struct writer *to, const struct journal *journal, const struct changes *changes) {
    const struct header header = {.before = journal->before, .after = journal->after, .runs = journal->runs, .pages = journal->pages,
                                  .zero_runs = journal->zero_runs, .zero_pages = journal->zero_pages};
    uint8_t *at = room_for(to, sizeof header);
    memcpy(at, &header, sizeof header);
    memcpy(at, journal->zero_runs ? magic_of_zeros : magic, MAGIC);
    put_runs(to, &changes->written);
    put_runs(to, &changes->zeroed);
    size_t rest = (size_t)(pages_at(journal) - runs_end(journal->runs + journal->zero_runs));
    memset(room_for(to, rest), 0, rest);
}

/* A page of the disk; sectors past its last one are zeros. */
static void put_page(struct writer *to, const struct disk *disk, uint32_t page) {
    uint8_t *at = room_for(to, PAGE_BYTES);
    for (uint32_t i = 0; i < PAGE_SECTORS; i++, at += SECTOR_BYTES) {
        uint64_t lba = (uint64_t)page * PAGE_SECTORS + i;
        if (lba < disk->sectors)
            disk->copy(disk->it, (uint32_t)lba, at);
        else
            memset(at, 0, SECTOR_BYTES);
    }
}

static int put_all(struct writer *to, const struct journal *journal, const struct disk *disk, const struct changes *changes) {
    const struct pages *written = &changes->written;
    put_header(to, journal, changes);
    for (size_t i = 0; i < written->count; i++)
        for (uint32_t page = 0; page < written->runs[i].count && !to->why; page++)
            put_page(to, disk, written->runs[i].first + page);
    drain(to);
    int why = to->why ? to->why : write_at(to->file, &to->sum, sizeof to->sum, to->at);
    return !why && fsync(to->file) ? errno : why;
}

int journal_write(struct journal *journal, const char *path, const struct disk *disk, const struct changes *changes, uint64_t before) {
    *journal = (struct journal){.before = before, .after = (uint64_t)disk->sectors * SECTOR_BYTES, .runs = changes->written.count, .pages = pages_count(&changes->written),
                                .zero_runs = changes->zeroed.count, .zero_pages = pages_count(&changes->zeroed)};
    journal->file = open(path, O_RDWR | O_CREAT | O_EXCL | O_CLOEXEC, 0600);
    if (journal->file < 0)
        return errno;
    struct writer to = {.file = journal->file};
    int why = put_all(&to, journal, disk, changes);
    if (why) {
        journal_close(journal);
        unlink(path);
    }
    return why;
}

/* ---- reading one ---- */

/* Whether the file begins as a journal does; one of zeros is what a power failure leaves. */
static bool is_strange(const struct header *header, uint64_t bytes) {
    size_t there = bytes < MAGIC ? (size_t)bytes : MAGIC;
    static const char zeros[MAGIC];
    return memcmp(header->magic, magic, there) && memcmp(header->magic, magic_of_zeros, there) && memcmp(header->magic, zeros, there);
}

/* Whether the header can be that of a journal of so many bytes. A disk has at most 2^29 pages, so no product is too large. */
static bool is_fit(const struct header *header, const struct journal *journal, uint64_t bytes) {
    const char *right = header->zero_runs ? magic_of_zeros : magic;
    const bool is_small = header->runs <= header->pages && !(header->pages >> 30) && header->zero_runs <= header->zero_pages && !(header->zero_pages >> 30);
    return !memcmp(header->magic, right, MAGIC) && is_small && bytes == sum_at(journal) + sizeof(uint64_t);
}

/* Whether the sum at the end is that of all before it. */
static int look_at_sum(const struct journal *journal, bool *is_right) {
    uint8_t bytes[CHUNK];
    uint64_t sum = 0, wanted, end = sum_at(journal);
    for (uint64_t at = 0; at < end; at += CHUNK) {
        size_t count = end - at < CHUNK ? (size_t)(end - at) : CHUNK;
        int why = read_at(journal->file, bytes, count, at);
        if (why)
            return why;
        sum = sum_of(sum, bytes, count);
    }
    int why = read_at(journal->file, &wanted, sizeof wanted, end);
    *is_right = sum == wanted;
    return why;
}

static int look(struct journal *journal, uint64_t bytes, enum journal_state *state) {
    struct header header = {.rest = 0};
    int why = read_at(journal->file, &header, bytes < sizeof header ? (size_t)bytes : sizeof header, 0);
    if (why)
        return why;
    journal->before = header.before;
    journal->after = header.after;
    journal->runs = header.runs;
    journal->pages = header.pages;
    journal->zero_runs = header.zero_runs;
    journal->zero_pages = header.zero_pages;
    *state = is_strange(&header, bytes) ? JOURNAL_STRANGE : JOURNAL_TORN;
    if (!is_fit(&header, journal, bytes))
        return 0;
    bool is_right = false;
    why = look_at_sum(journal, &is_right);
    if (is_right)
        *state = JOURNAL_WHOLE;
    return why;
}

int journal_open(struct journal *journal, const char *path, enum journal_state *state) {
    struct stat found;
    *journal = (struct journal){.file = open(path, O_RDONLY | O_NOFOLLOW | O_NONBLOCK | O_CLOEXEC)};
    *state = errno == ELOOP ? JOURNAL_STRANGE : JOURNAL_NONE;
    if (journal->file < 0)
        return errno == ENOENT || errno == ELOOP ? 0 : errno;
    *state = JOURNAL_STRANGE;
    if (fstat(journal->file, &found))
        return errno;
    return S_ISREG(found.st_mode) ? look(journal, (uint64_t)found.st_size, state) : 0;
}

void journal_close(struct journal *journal) {
    if (journal->file >= 0)
        close(journal->file);
    journal->file = -1;
}

/* ---- writing it into the image ---- */

/* Zeros become a hole, if the file system has holes. */
static int put_into(int image, const uint8_t *bytes, size_t count, uint64_t at) {
    if (is_blank(bytes, count) && !fallocate(image, FALLOC_FL_PUNCH_HOLE | FALLOC_FL_KEEP_SIZE, (off_t)at, (off_t)count))
        return 0;
    return write_at(image, bytes, count, at);
}

/* Copies a run, whose pages are at *from in the journal. The last page of an image may be cut short. */
static int copy_run(const struct journal *journal, int image, struct page_run run, uint64_t *from) {
    uint8_t bytes[CHUNK];
    uint64_t at = (uint64_t)run.first * PAGE_BYTES, end = at + (uint64_t)run.count * PAGE_BYTES;
    for (; at < end; at += CHUNK) {
        size_t count = end - at < CHUNK ? (size_t)(end - at) : CHUNK;
        int why = read_at(journal->file, bytes, count, *from);
        if (why || at >= journal->after)
            return why ? why : EBADMSG;
        *from += count;
        if ((why = put_into(image, bytes, journal->after - at < count ? (size_t)(journal->after - at) : count, at)))
            return why;
    }
    return 0;
}

/* Makes a run zeros. */
static int zero_run(const struct journal *journal, int image, struct page_run run, uint64_t *from) {
    static const uint8_t zeros[CHUNK];
    uint64_t at = (uint64_t)run.first * PAGE_BYTES, end = at + (uint64_t)run.count * PAGE_BYTES;
    (void)from;
    if (end > journal->after)
        return EBADMSG;
    if (!fallocate(image, FALLOC_FL_PUNCH_HOLE | FALLOC_FL_KEEP_SIZE, (off_t)at, (off_t)(end - at)))
        return 0;
    int why = 0;
    for (; at < end && !why; at += CHUNK)
        why = write_at(image, zeros, end - at < CHUNK ? (size_t)(end - at) : CHUNK, at);
    return why;
}

typedef int take_journal_run(const struct journal *journal, int image, struct page_run run, uint64_t *from);

/* Takes the runs from one place among them up to another. */
static int take_runs(const struct journal *journal, int image, uint64_t first, uint64_t end, take_journal_run *take) {
    struct page_run runs[RUNS];
    uint64_t from = pages_at(journal);
    for (uint64_t at = first; at < end; at += RUNS) {
        size_t count = end - at < RUNS ? (size_t)(end - at) : RUNS;
        int why = read_at(journal->file, runs, count * sizeof *runs, runs_end(at));
        for (size_t i = 0; i < count && !why; i++)
            why = take(journal, image, runs[i], &from);
        if (why)
            return why;
    }
    return 0;
}

int journal_apply(const struct journal *journal, int image) {
    struct stat found;
    /* at once: so the image has never a size between the two */
    if (fstat(image, &found) || ((uint64_t)found.st_size < journal->after && ftruncate(image, (off_t)journal->after)))
        return errno;
    int why = take_runs(journal, image, journal->runs, journal->runs + journal->zero_runs, zero_run);
    if (!why)
        why = take_runs(journal, image, 0, journal->runs, copy_run);
    return !why && fdatasync(image) ? errno : why;
}
