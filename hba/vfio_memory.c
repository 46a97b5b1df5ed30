#include "vfio_memory.h"

#include "log.h"

#include <errno.h>
#include <inttypes.h>
#include <stdlib.h>
#include <string.h>

/* ---- a run, message by message ---- */

static size_t smaller(size_t a, size_t b) {
    return a < b ? a : b;
}

/* Copies the bytes of a run that are in a region with a file. */
static bool move_here(struct vfio_memory *it, size_t part) {
    struct transfer *transfer = &it->transfer;
    uint64_t address = transfer->address + transfer->done;
    uint8_t *bytes = transfer->bytes + transfer->done;
    return transfer->writes ? memory_write(it->memory, address, bytes, part) : memory_read(it->memory, address, bytes, part);
}

/* Asks for the next bytes of a run, or sends them. */
static bool ask(struct vfio_memory *it, size_t part) {
    struct transfer *transfer = &it->transfer;
    const struct vfio_dma_access access = {.address = transfer->address + transfer->done, .count = part};
    const struct vfio_part parts[] = {{&access, sizeof access}, {transfer->bytes + transfer->done, part}};
    transfer->part = part;
    transfer->id++;
    return link_ask(it->link, transfer->id, transfer->writes ? VFIO_DMA_WRITE : VFIO_DMA_READ, parts, transfer->writes ? 2 : 1);
}

/* Goes on with a run, up to the next message that wants an answer. */
static void go_on(struct vfio_memory *it) {
    struct transfer *transfer = &it->transfer;
    const size_t most = smaller(it->link->most_data, VFIO_MOST_DATA);
    while (transfer->done < transfer->count) {
        bool far = false;
        size_t part = memory_piece(it->memory, transfer->writes, transfer->address + transfer->done, transfer->count - transfer->done, &far);
        if (far) {
            transfer->state = ask(it, smaller(part, most)) ? TRANSFER_ASKED : TRANSFER_FAILED;
            return;
        }
        if (part == 0 || !move_here(it, part)) {
            transfer->state = TRANSFER_FAILED;
            return;
        }
        transfer->done += part;
    }
    transfer->state = TRANSFER_ENDED;
}

/* Whether a reply is that of a whole part: an address and a count, and a read's bytes. */
static bool is_whole(const struct transfer *transfer, const struct vfio_message *message) {
    struct vfio_dma_access access;
    if (message->header.flags & VFIO_ERROR || message->bytes < sizeof access)
        return false;
    memcpy(&access, message->data, sizeof access);
    return access.count == transfer->part && (transfer->writes || message->bytes - sizeof access >= transfer->part);
}

void vfio_memory_answered(struct vfio_memory *it, const struct vfio_message *message) {
    struct transfer *transfer = &it->transfer;
    uint16_t command = transfer->writes ? VFIO_DMA_WRITE : VFIO_DMA_READ;
    if (transfer->state != TRANSFER_ASKED || message->header.id != transfer->id || message->header.command != command) {
        log_line("an answer is not waited for");
        return;
    }
    if (!is_whole(transfer, message)) {
        log_line("no answer for memory at %" PRIx64, transfer->address + transfer->done);
        transfer->state = TRANSFER_FAILED;
        return;
    }
    if (!transfer->writes)
        memcpy(transfer->bytes + transfer->done, message->data + sizeof(struct vfio_dma_access), transfer->part);
    transfer->done += transfer->part;
    go_on(it);
}

/* ---- for the device ---- */

static bool is_same(const struct transfer *transfer, bool writes, uint64_t address, size_t count) {
    return transfer->state != TRANSFER_NONE && transfer->writes == writes && transfer->address == address && transfer->count == count;
}

/* Begins a run. It returns false without memory for it. */
static bool begin(struct vfio_memory *it, bool writes, uint64_t address, const uint8_t *bytes, size_t count) {
    struct transfer *transfer = &it->transfer;
    if (count > transfer->room) {
        uint8_t *room = realloc(transfer->bytes, count);
        if (!room)
            return false;
        transfer->bytes = room;
        transfer->room = count;
    }
    if (writes)
        memcpy(transfer->bytes, bytes, count);
    transfer->writes = writes;
    transfer->address = address;
    transfer->count = count;
    transfer->done = 0;
    go_on(it);
    return true;
}

static enum moved move(void *of, bool writes, uint64_t address, uint8_t *bytes, size_t count) {
    struct vfio_memory *it = of;
    struct transfer *transfer = &it->transfer;
    if (!is_same(transfer, writes, address, count) && !begin(it, writes, address, bytes, count))
        return MOVED_NOTHING;
    if (transfer->state == TRANSFER_ASKED)
        return MOVED_LATER;
    bool is_moved = transfer->state == TRANSFER_ENDED;
    transfer->state = TRANSFER_NONE;
    if (is_moved && !writes)
        memcpy(bytes, transfer->bytes, count);
    return is_moved ? MOVED_ALL : MOVED_NOTHING;
}

static bool waits(const void *of) {
    const struct vfio_memory *it = of;
    return it->transfer.state == TRANSFER_ASKED;
}

static void forget(void *of) {
    struct vfio_memory *it = of;
    it->transfer.state = TRANSFER_NONE;
}

void vfio_memory_begin(struct vfio_memory *it, struct memory *memory, struct vfio_link *link) {
    *it = (struct vfio_memory){.memory = memory, .link = link};
    memory->far = (struct far){.it = it, .move = move, .waits = waits, .forget = forget};
}

void vfio_memory_drop(struct vfio_memory *it) {
    forget(it);
    memory_clear(it->memory);
}

void vfio_memory_end(struct vfio_memory *it) {
    vfio_memory_drop(it);
    it->memory->far.move = NULL;
    free(it->transfer.bytes);
    it->transfer.bytes = NULL;
}

/* ---- regions ---- */

int vfio_memory_map(struct vfio_memory *it, const struct vfio_dma_map *map, struct files *files) {
    const struct region wanted = {.base = map->address, .bytes = map->size, .is_readable = map->flags & VFIO_MAP_READABLE, .is_writable = map->flags & VFIO_MAP_WRITABLE};
    int file = files_take(files, 0);
    if (file < 0 && map->flags & VFIO_MAP_BY_FILE)
        return EINVAL;
    int failed = memory_add(it->memory, &wanted, file, map->offset);
    file_close(&file);
    if (failed)
        log_line("the memory at %" PRIx64 " of %" PRIu64 " bytes can't be used: %s", map->address, map->size, strerror(failed));
    return failed;
}

/* A run that waits for an answer begins anew, or fails if it was of a region that is taken back. */
int vfio_memory_unmap(struct vfio_memory *it, const struct vfio_dma_unmap *unmap) {
    forget(it);
    if (unmap->flags & VFIO_UNMAP_ALL) {
        memory_clear(it->memory);
        return 0;
    }
    return memory_remove(it->memory, unmap->address, unmap->size) ? 0 : ENOENT;
}
