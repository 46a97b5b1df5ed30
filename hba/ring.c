#include "ring.h"

#include "log.h"

#include <inttypes.h>
#include <string.h>
#include <unistd.h>

#define DESCRIPTOR_BYTES 16
#define FLAG_NEXT 1
#define FLAG_WRITE 2

static uint16_t get16(const uint8_t *from) {
    return (uint16_t)(from[0] | from[1] << 8);
}

static uint32_t get32(const uint8_t *from) {
    return get16(from) | (uint32_t)get16(from + 2) << 16;
}

static uint64_t get64(const uint8_t *from) {
    return get32(from) | (uint64_t)get32(from + 4) << 32;
}

static void put32(uint8_t *to, uint32_t word) {
    for (unsigned i = 0; i < 4; i++)
        to[i] = (uint8_t)(word >> 8 * i);
}

static bool broken(const char *what) {
    log_line("a queue of the guest is broken: %s", what);
    return false;
}

/* Takes one descriptor into the chain. */
static bool take_part(const struct memory *memory, const uint8_t *descriptor, struct chain *chain) {
    uint32_t count = get32(descriptor + 8);
    uint8_t *bytes = memory_at(memory, get64(descriptor), count);
    if (!bytes)
        return broken("a buffer is no memory");
    if (get16(descriptor + 12) & FLAG_WRITE) {
        chain->answer = bytes;
        chain->answer_bytes = count;
        return true;
    }
    if (count > sizeof chain->request - chain->request_bytes)
        return broken("a request is too long");
    memcpy(chain->request + chain->request_bytes, bytes, count);
    chain->request_bytes += count;
    return true;
}

static bool take_chain(const struct ring *ring, const struct memory *memory, struct chain *chain) {
    uint16_t at = chain->head;
    for (uint32_t parts = 0; parts < ring->entries; parts++) {
        uint8_t descriptor[DESCRIPTOR_BYTES];
        if (at >= ring->entries || !memory_read(memory, ring->descriptors + DESCRIPTOR_BYTES * (uint64_t)at, descriptor, sizeof descriptor))
            return broken("a descriptor is no memory");
        if (!take_part(memory, descriptor, chain))
            return false;
        if (!(get16(descriptor + 12) & FLAG_NEXT))
            return true;
        at = get16(descriptor + 14);
    }
    return broken("a chain has no end");
}

bool ring_take(struct ring *ring, const struct memory *memory, struct chain *chain) {
    const uint8_t *available = ring->entries ? memory_at(memory, ring->available, 4 + 2 * (uint64_t)ring->entries) : NULL;
    if (!available || __atomic_load_n((const uint16_t *)(available + 2), __ATOMIC_ACQUIRE) == ring->next)
        return false;
    *chain = (struct chain){.head = get16(available + 4 + 2 * (ring->next++ % ring->entries))};
    return take_chain(ring, memory, chain);
}

void ring_give(struct ring *ring, const struct memory *memory, const struct chain *chain, uint32_t written) {
    uint8_t *used = memory_at(memory, ring->used, 4 + 8 * (uint64_t)ring->entries);
    if (!used)
        return;
    uint16_t at = get16(used + 2);
    put32(used + 4 + 8 * (at % ring->entries), chain->head);
    put32(used + 8 + 8 * (at % ring->entries), written);
    __atomic_store_n((uint16_t *)(used + 2), (uint16_t)(at + 1), __ATOMIC_RELEASE);
}

void ring_signal(struct ring *ring) {
    uint64_t one = 1;
    if (ring->call >= 0 && write(ring->call, &one, sizeof one) != sizeof one)
        log_line("the guest can't be signalled: %m");
}
