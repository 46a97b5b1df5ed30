#include "stepping.h"

#include "device.h"
#include "log.h"

#include <inttypes.h>

#define WRITE_UNCORRECTABLE_EXT 0x45

void step_look(struct device *device) {
    for (uint32_t slot = 0; slot < AHCI_MOST_TAGS; slot++) {
        uint64_t lba = 0;
        uint32_t sectors = 0;
        if (device->state.next[slot] == AHCI_STEP_EXECUTE)
            device_must("ahci_hba_trim_range", ahci_hba_trim_range(&device->hba, slot, &lba, &sectors));
        device->zeros[slot] = (struct extent){.lba = (uint32_t)lba, .sectors = sectors};
    }
}

/* A step that makes sectors zeros comes before the one that answers the TRIM. */
bool step_answers(const struct device *device, uint32_t slot) {
    const uint8_t kind = device->state.next[slot];
    return kind == AHCI_STEP_SERVE || (kind == AHCI_STEP_EXECUTE && !device->zeros[slot].sectors);
}

/* Whether a flush was carried out, and not aborted: it is the journal's newest entry then. */
static bool has_flushed(struct device *device) {
    ahci_state queue;
    ahci_entry newest;
    device_must("ahci_hba_port", ahci_hba_port(&device->hba, &queue));
    return queue.next > queue.first && ahci_hba_entry(&device->hba, queue.next - 1, &newest) == AHCI_OK && newest.kind == AHCI_EVENT_FLUSH;
}

/* Whether the disk has a write cache that is enabled: SET FEATURES and resets change that. */
static bool has_cache(struct device *device) {
    uint32_t enabled;
    device_must("ahci_hba_write_cache_enabled", ahci_hba_write_cache_enabled(&device->hba, &enabled));
    return enabled;
}

/* A command was carried out that may have flushed the cache: FLUSH CACHE does, and so does SET FEATURES 82h, which disables it. */
static void note_flush(struct device *device, const struct command *command) {
    if (device->cache.is_on && ((command->flushes && has_flushed(device)) || !has_cache(device)))
        cache_flush(&device->cache);
}

/* A queued read may have failed at a sector that WRITE UNCORRECTABLE EXT has marked. */
static void note_marked(struct device *device, uint32_t slot) {
    ahci_entry entry;
    if (!device->marks || !history_has_failed(device, slot, &entry))
        return;
    log_line("fail %" PRIu32 " with %02" PRIx32 " at sector %" PRIu64 ", which is marked uncorrectable", slot, entry.error, entry.lba);
    recovery_event(&device->judge, &device->hba, EVENT_FAIL, 0, slot);
    provoke_answer(device, slot);
}

/* What the library's step of a slot means here, which has made these sectors zeros, if any. */
static void note_step(struct device *device, uint32_t slot, uint8_t kind, struct extent zeros) {
    struct task *task = &device->tasks[slot];
    history_count(device, slot, kind);
    if (zeros.sectors) {
        mapped_zeroed(&device->settings->mapped, zeros.lba, zeros.sectors);
        return;
    }
    if (kind == AHCI_STEP_FETCH) {
        device->reading = slot;
        device->runs = 0;
        *task = (struct task){.number = 0};
        judge_fetch(&device->judge, slot);
    }
    if (kind == AHCI_STEP_DELIVER || kind == AHCI_STEP_EXECUTE || kind == AHCI_STEP_RECOVER) {
        device->answered = slot;
        provoke_answer(device, slot);
    }
    if (kind == AHCI_STEP_SERVE && task->command.writes)
        mapped_wrote(&device->settings->mapped, (uint32_t)task->command.lba, task->command.sectors);
    if (kind == AHCI_STEP_SERVE && task->command.queued && !task->command.writes)
        note_marked(device, slot);
    if (kind == AHCI_STEP_EXECUTE) {
        device->marks |= task->command.code == WRITE_UNCORRECTABLE_EXT;
        note_flush(device, &task->command);
    }
}

/* Makes room for what a step of a slot's command adds to the image and to the cache. It returns false if there is no memory. */
static bool reserve(struct device *device, uint32_t slot, uint8_t kind, struct extent zeros) {
    const struct command *command = &device->tasks[slot].command;
    struct cache *cache = &device->cache;
    if (kind != AHCI_STEP_SERVE && !zeros.sectors)
        return true;
    if (!writeback_reserve(&device->writeback))
        return false;
    if (!cache->is_on)
        return true;
    if (zeros.sectors)
        return cache_prepare_zeros(cache, zeros.lba, zeros.sectors, !has_cache(device));
    return !command->writes || cache_prepare(cache, (uint32_t)command->lba, command->sectors, command->has_fua || !has_cache(device));
}

void step_take(struct device *device, uint32_t slot) {
    const uint8_t kind = device->state.next[slot];
    const struct extent zeros = device->zeros[slot];
    uint64_t entries = 0;
    if (!reserve(device, slot, kind, zeros)) {
        device_starve(device);
        return;
    }
    if (zeros.sectors)
        history_touch(device, zeros.lba, zeros.sectors);
    else if (step_answers(device, slot))
        judge_answer(&device->judge, slot);
    uint32_t status = ahci_hba_step(&device->hba, slot, &entries);
    cache_settle(&device->cache, status == AHCI_OK);
    if (status == AHCI_OUT_OF_MEMORY) {
        device_starve(device);
        return;
    }
    if (status != AHCI_OK) {
        log_line("step %d of slot %" PRIu32 " was refused: status %" PRIu32, kind, slot, status);
        device->stuck |= UINT32_C(1) << slot;
        return;
    }
    note_step(device, slot, kind, zeros);
    history_follow(device, entries, kind == AHCI_STEP_RECOVER);
}
