#include "power.h"

#include "device.h"
#include "log.h"
#include "say.h"

#include <inttypes.h>
#include <stdlib.h>
#include <string.h>

/* Whether the disk has a command of its queue that it has begun and not carried out. */
static bool is_begun(const ahci_state *queue, uint32_t slot) {
    return queue->phases[slot] == AHCI_PHASE_ISSUED || queue->phases[slot] == AHCI_PHASE_ACCEPTED;
}

/* Adds the write of a slot that is begun. It returns false if there is no memory. */
static bool add_begun(struct device *device, uint64_t number) {
    ahci_entry entry;
    uint8_t *bytes;
    device_must("ahci_hba_entry", ahci_hba_entry(&device->hba, number, &entry));
    if (entry.kind != AHCI_EVENT_WRITE || entry.lba >= device->disk.sectors || entry.sectors > device->disk.sectors - entry.lba)
        return true;
    if (!cache_add(&device->cache, (uint32_t)entry.lba, entry.sectors, &bytes))
        return false;
    device_must("ahci_hba_entry_bytes", ahci_hba_entry_bytes(&device->hba, number, bytes, (size_t)entry.sectors * SECTOR_BYTES));
    return true;
}

static bool add_all_begun(struct device *device) {
    ahci_state queue;
    device_must("ahci_hba_port", ahci_hba_port(&device->hba, &queue));
    for (uint32_t slot = 0; slot < AHCI_MOST_TAGS; slot++)
        if (is_begun(&queue, slot) && !add_begun(device, queue.numbers[slot]))
            return false;
    return true;
}

/* The pages that the writes have touched. It returns false if there is no memory. */
static bool take_pages(const struct cache *cache, struct pages *pages) {
    size_t count = 0;
    for (const struct cached *it = cache->first; it; it = it->next)
        count++;
    if (!pages_reserve(pages, count))
        return false;
    for (const struct cached *it = cache->first; it; it = it->next)
        pages_add(pages, it->lba, it->sectors);
    pages_settle(pages);
    return true;
}

/* Writes all sectors into the image as the loss has left them. */
static bool write_left(struct mapped *mapped, const struct disk *left, const struct pages *pages) {
    if (!mapped_reserve(mapped, pages->count))
        return false;
    pages_append(&mapped->changes.written, pages);
    return !mapped_write(mapped, left);
}

/* Makes the controller anew over the image. Nothing is outstanding. */
static void make_anew(struct device *device) {
    ahci_hba_free(&device->hba);
    if (device_make(device))
        exit(EXIT_FAILURE);
    memset(device->tasks, 0, sizeof device->tasks);
    device->stuck = device->stalled = device->flushing = device->covered = 0;
    device->mute = false;
    device->wait = WAIT_NOTHING;
    slow_reset(&device->slow);
    judge_power_on(&device->judge);
    memory_forget(device->memory);
    device_look(device);
}

void power_lose(struct device *device, uint64_t seed) {
    struct pages pages = {0};
    struct mapped *mapped = &device->settings->mapped;
    writeback_end(&device->writeback);
    writeback_begin(&device->writeback, mapped, &device->disk);
    bool has_memory = add_all_begun(device) && take_pages(&device->cache, &pages);
    cache_lose(&device->cache, seed + device->losses++);
    const struct disk left = cache_left(&device->cache);
    if (!has_memory || !write_left(mapped, &left, &pages)) {
        say("the image can't be written as a loss of power leaves it%s, and the program ends", has_memory ? "" : ": there is no memory");
        exit(EXIT_FAILURE);
    }
    history_lose(device, &left, &pages);
    pages_free(&pages);
    cache_clear(&device->cache);
    make_anew(device);
    history_go_on(device);
    log_line("the power was lost");
    log_flush();
}
