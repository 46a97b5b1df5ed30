/* The guest's memory: regions at addresses of the guest, each mapped here from a file or reached by messages. */
#ifndef AHCI_HBA_MEMORY_H
#define AHCI_HBA_MEMORY_H

#include <stdbool.h>
#include <stddef.h>
#include <stdint.h>

#define MOST_REGIONS 256

struct region {
    uint64_t base;  /* the guest's address of its first byte */
    uint64_t bytes;
    uint8_t *at;    /* where that byte is here; NULL if it has no file */
    void *map;
    size_t mapped;
    bool is_readable, is_writable;
};

/* What became of a run of bytes. */
enum moved { MOVED_NOTHING, /* some byte is no memory */ MOVED_ALL, MOVED_LATER /* the answer comes by a message */ };

/* How memory without a file is reached. */
struct far {
    void *it;
    enum moved (*move)(void *it, bool writes, uint64_t address, uint8_t *bytes, size_t count); /* called again for the same run until it has moved */
    bool (*waits)(const void *it); /* whether an answer is to come */
    void (*forget)(void *it);      /* the run is not wanted any more */
};

struct memory {
    struct region regions[MOST_REGIONS];
    unsigned count;
    struct far far; /* without `move` there is no such memory */
};

/* From here on a copy ends where the file of some memory has become shorter; before, the program did. */
void memory_begin(void);

/* Unmaps all regions. */
void memory_clear(struct memory *memory);

/* Adds a region of `bytes` bytes of a file, from `offset` on, at an address of the guest; of no file if `file` is -1. The file stays open. It
   returns 0 or an errno: EEXIST if there is memory already. */
int memory_add(struct memory *memory, const struct region *wanted, int file, uint64_t offset);

/* Removes the regions that are within these bytes; false if there is none. */
bool memory_remove(struct memory *memory, uint64_t base, uint64_t bytes);

/* Copies a run of the guest's memory to or from `bytes`. If some byte of the run is no memory, or can't be reached without messages, the answer is
   false; nothing is copied then, unless a file has become shorter. */
bool memory_read(const struct memory *memory, uint64_t address, uint8_t *bytes, size_t count);
bool memory_write(const struct memory *memory, uint64_t address, const uint8_t *bytes, size_t count);

/* The same, also by messages. */
enum moved memory_move(struct memory *memory, bool writes, uint64_t address, uint8_t *bytes, size_t count);

/* Whether all of a run is memory that can be read, or written. */
bool memory_is_there(const struct memory *memory, bool writes, uint64_t address, size_t count);

/* Whether a run waits for a message, and that it is not wanted any more. */
bool memory_waits(const struct memory *memory);
void memory_forget(struct memory *memory);

/* The bytes from an address on that are in one region, with a file or without: how many of them, `most` at most. *far says that there is no file.
   0 if there is no memory that can be read, or written. */
size_t memory_piece(const struct memory *memory, bool writes, uint64_t address, size_t most, bool *far);

/* Where a run of the guest's memory is here, if all of it is in one region; else NULL. */
uint8_t *memory_at(const struct memory *memory, uint64_t address, uint64_t count);

#endif
