#include "memory.h"

#include "log.h"

#include <errno.h>
#include <inttypes.h>
#include <setjmp.h>
#include <signal.h>
#include <string.h>
#include <sys/mman.h>
#include <sys/stat.h>
#include <unistd.h>

/* ---- regions ---- */

static void unmap(const struct region *region) {
    if (region->map)
        munmap(region->map, region->mapped);
}

void memory_clear(struct memory *memory) {
    for (unsigned i = 0; i < memory->count; i++)
        unmap(&memory->regions[i]);
    memory->count = 0;
}

static bool overlaps(const struct memory *memory, const struct region *wanted) {
    for (unsigned i = 0; i < memory->count; i++) {
        const struct region *it = &memory->regions[i];
        if (it->base <= wanted->base + (wanted->bytes - 1) && wanted->base <= it->base + (it->bytes - 1))
            return true;
    }
    return false;
}

/* Whether a file has all bytes of a region. One whose size isn't known is taken as it is. */
static bool has_bytes(int file, uint64_t offset, uint64_t bytes) {
    struct stat found;
    if (fstat(file, &found))
        return false;
    return !S_ISREG(found.st_mode) || (offset <= (uint64_t)found.st_size && bytes <= (uint64_t)found.st_size - offset);
}

/* Maps a region's bytes of a file. */
static int map(struct region *region, int file, uint64_t offset) {
    uint64_t page = (uint64_t)sysconf(_SC_PAGESIZE), before = offset % page;
    int access = (region->is_readable ? PROT_READ : 0) | (region->is_writable ? PROT_WRITE : 0);
    if (region->bytes > SIZE_MAX - before || !has_bytes(file, offset, region->bytes))
        return EINVAL;
    region->mapped = (size_t)(region->bytes + before);
    region->map = mmap(NULL, region->mapped, access, MAP_SHARED, file, (off_t)(offset - before));
    if (region->map == MAP_FAILED)
        return errno;
    region->at = (uint8_t *)region->map + before;
    return 0;
}

int memory_add(struct memory *memory, const struct region *wanted, int file, uint64_t offset) {
    struct region region = *wanted;
    if (region.bytes == 0 || region.base + (region.bytes - 1) < region.base)
        return EINVAL;
    if (overlaps(memory, &region))
        return EEXIST;
    if (memory->count == MOST_REGIONS)
        return ENOSPC;
    int failed = file < 0 ? 0 : map(&region, file, offset);
    if (failed)
        return failed;
    memory->regions[memory->count++] = region;
    log_line("memory %" PRIx64 " to %" PRIx64 "%s%s", region.base, region.base + (region.bytes - 1), region.is_writable ? "" : ", to be read", file < 0 ? ", without a file" : "");
    return 0;
}

bool memory_remove(struct memory *memory, uint64_t base, uint64_t bytes) {
    unsigned kept = 0, before = memory->count;
    for (unsigned i = 0; i < before; i++) {
        const struct region *it = &memory->regions[i];
        bool is_within = it->base >= base && it->base - base < bytes && it->bytes <= bytes - (it->base - base);
        if (!is_within) {
            memory->regions[kept++] = *it;
            continue;
        }
        log_line("no memory any more %" PRIx64 " to %" PRIx64, it->base, it->base + (it->bytes - 1));
        unmap(it);
    }
    memory->count = kept;
    return kept < before;
}

/* ---- copying ---- */

static sigjmp_buf gone; /* where a copy goes on whose file has become shorter */
static volatile sig_atomic_t is_copying;

/* An access outside of a copy is made again, and ends the program. */
static void note_gone(int number) {
    if (is_copying)
        siglongjmp(gone, 1);
    signal(number, SIG_DFL);
}

void memory_begin(void) {
    static const struct sigaction action = {.sa_handler = note_gone, .sa_flags = SA_NODEFER};
    sigaction(SIGBUS, &action, NULL);
}

/* Copies bytes of which some may be in a file that its owner makes shorter meanwhile: the system reports that by SIGBUS. */
static bool copy(uint8_t *to, const uint8_t *from, size_t count) {
    bool is_whole = sigsetjmp(gone, 0) == 0;
    if (is_whole) {
        is_copying = 1;
        memcpy(to, from, count);
    } else {
        log_line("the file of some memory has become shorter");
    }
    is_copying = 0;
    return is_whole;
}

/* The region of an address, if it can be read, or written. */
static const struct region *region_at(const struct memory *memory, bool writes, uint64_t address) {
    for (unsigned i = 0; i < memory->count; i++) {
        const struct region *it = &memory->regions[i];
        if (address >= it->base && address - it->base < it->bytes)
            return (writes ? it->is_writable : it->is_readable) ? it : NULL;
    }
    return NULL;
}

static size_t least(uint64_t left, size_t most) {
    return left < most ? (size_t)left : most;
}

size_t memory_piece(const struct memory *memory, bool writes, uint64_t address, size_t most, bool *far) {
    const struct region *it = region_at(memory, writes, address);
    if (!it)
        return 0;
    *far = !it->at;
    return least(it->bytes - (address - it->base), most);
}

/* Whether all of a run is memory, and whether it is here. An address doesn't go on at 0 after the last one. */
static bool is_memory(const struct memory *memory, bool writes, uint64_t address, size_t count, bool *is_here) {
    *is_here = true;
    if (count && address + (count - 1) < address)
        return false;
    while (count) {
        bool far;
        size_t part = memory_piece(memory, writes, address, count, &far);
        if (part == 0)
            return false;
        *is_here &= !far;
        address += part;
        count -= part;
    }
    return true;
}

bool memory_is_there(const struct memory *memory, bool writes, uint64_t address, size_t count) {
    bool is_here;
    return is_memory(memory, writes, address, count, &is_here);
}

static bool copy_run(const struct memory *memory, bool writes, uint64_t address, uint8_t *bytes, size_t count) {
    while (count) {
        const struct region *it = region_at(memory, writes, address);
        uint64_t within = address - it->base;
        size_t part = least(it->bytes - within, count);
        if (!(writes ? copy(it->at + within, bytes, part) : copy(bytes, it->at + within, part)))
            return false;
        address += part;
        bytes += part;
        count -= part;
    }
    return true;
}

static bool move_here(const struct memory *memory, bool writes, uint64_t address, uint8_t *bytes, size_t count) {
    bool is_here;
    return is_memory(memory, writes, address, count, &is_here) && is_here && copy_run(memory, writes, address, bytes, count);
}

bool memory_read(const struct memory *memory, uint64_t address, uint8_t *bytes, size_t count) {
    return move_here(memory, false, address, bytes, count);
}

bool memory_write(const struct memory *memory, uint64_t address, const uint8_t *bytes, size_t count) {
    return move_here(memory, true, address, (uint8_t *)bytes, count);
}

enum moved memory_move(struct memory *memory, bool writes, uint64_t address, uint8_t *bytes, size_t count) {
    bool is_here;
    if (!is_memory(memory, writes, address, count, &is_here))
        return MOVED_NOTHING;
    if (is_here)
        return copy_run(memory, writes, address, bytes, count) ? MOVED_ALL : MOVED_NOTHING;
    return memory->far.move ? memory->far.move(memory->far.it, writes, address, bytes, count) : MOVED_NOTHING;
}

bool memory_waits(const struct memory *memory) {
    return memory->far.move && memory->far.waits(memory->far.it);
}

void memory_forget(struct memory *memory) {
    if (memory->far.move)
        memory->far.forget(memory->far.it);
}

uint8_t *memory_at(const struct memory *memory, uint64_t address, uint64_t count) {
    const struct region *it = region_at(memory, true, address);
    return it && it->at && count <= it->bytes - (address - it->base) ? it->at + (address - it->base) : NULL;
}
