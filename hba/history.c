#include "history.h"

#include "device.h"
#include "log.h"

#include <inttypes.h>
#include <poll.h>
#include <string.h>

#define ENTRY_BYTES 256 /* about what the journal's entries of one command take, without a write's bytes */

/* ---- entries ---- */

static void put_tag(struct history *history, enum record_kind kind, uint32_t tag) {
    scribe_put(&history->scribe, (struct record_entry){.kind = (uint8_t)kind, .tag = (uint8_t)tag}, 0);
}

static void put_command(struct device *device, const ahci_entry *entry) {
    struct history *history = &device->history;
    const bool writes = entry->kind == AHCI_EVENT_WRITE;
    const struct record_entry it = {.kind = writes ? RECORD_WRITE : RECORD_READ, .tag = (uint8_t)entry->tag, .flag = device->tasks[entry->tag].command.has_fua,
                                    .count = entry->sectors, .lba = entry->lba};
    size_t bytes = writes ? (size_t)entry->sectors * AHCI_SECTOR_BYTES : 0;
    uint8_t *behind = scribe_put_command(&history->scribe, &device->disk, it, bytes);
    if (writes && behind)
        device_must("ahci_hba_entry_bytes", ahci_hba_entry_bytes(&device->hba, history->seen, behind, bytes));
    history->owned |= UINT32_C(1) << entry->tag;
}

void history_touch(struct device *device, uint32_t lba, uint32_t sectors) {
    scribe_touch(&device->history.scribe, &device->disk, lba, sectors);
}

/* Sectors became zeros. Their pages were touched before that. */
static void put_zeros(struct history *history, const ahci_entry *entry) {
    scribe_put(&history->scribe, (struct record_entry){.kind = RECORD_ZERO, .count = entry->sectors, .lba = entry->lba}, 0);
}

/* A command is served: its tag is behind the entry. */
static void put_served(struct history *history, uint32_t tag) {
    const struct record_entry it = {.kind = RECORD_SERVE, .count = 1};
    uint8_t *behind = scribe_put(&history->scribe, it, RECORD_TAGS);
    if (behind)
        memcpy(behind, (uint8_t[RECORD_TAGS]){(uint8_t)tag}, RECORD_TAGS);
}

static void put_failed(struct history *history, const ahci_entry *entry) {
    scribe_put(&history->scribe, (struct record_entry){.kind = RECORD_FAIL, .tag = (uint8_t)entry->tag, .flag = (uint8_t)entry->error, .lba = entry->lba}, 0);
    history->failed_tag = entry->tag;
}

/* Records an entry of the journal. */
static void put_entry(struct device *device, const ahci_entry *entry) {
    static const enum record_kind kinds[] = {
        [AHCI_EVENT_ACCEPT] = RECORD_ACCEPT, [AHCI_EVENT_RECOVER] = RECORD_RECOVER, [AHCI_EVENT_REISSUE] = RECORD_REISSUE, [AHCI_EVENT_COLLECT] = RECORD_COLLECT,
        [AHCI_EVENT_IDENTIFY] = RECORD_IDENTIFY, [AHCI_EVENT_FLUSH] = RECORD_FLUSH, [AHCI_EVENT_READ_LOG] = RECORD_READ_LOG};
    struct history *history = &device->history;
    switch (entry->kind) {
    case AHCI_EVENT_READ:
    case AHCI_EVENT_WRITE:
        put_command(device, entry);
        break;
    case AHCI_EVENT_COMPLETE:
        put_served(history, entry->tag);
        break;
    case AHCI_EVENT_FAIL:
        put_failed(history, entry);
        break;
    case AHCI_EVENT_ZERO:
        put_zeros(history, entry);
        break;
    default:
        put_tag(history, kinds[entry->kind], entry->tag);
        history->owned &= ~(entry->kind == AHCI_EVENT_COLLECT ? UINT32_C(1) << entry->tag : 0);
        break;
    }
}

/* The number that the journal's next entry has. */
static uint64_t next_number(ahci_hba *hba) {
    ahci_state state;
    return ahci_hba_port(hba, &state) == AHCI_OK ? state.next : 0;
}

bool history_has_failed(struct device *device, uint32_t slot, ahci_entry *entry) {
    uint64_t next = next_number(&device->hba);
    return next && ahci_hba_entry(&device->hba, next - 1, entry) == AHCI_OK && entry->kind == AHCI_EVENT_FAIL && entry->tag == slot;
}

/* What the record gets when the journal was handed out. The two entries of a recovery were handed out with it. */
static void put_end(struct device *device, bool has_recovered) {
    struct history *history = &device->history;
    if (has_recovered) {
        put_tag(history, RECORD_RECOVER, 0);
        put_tag(history, RECORD_COLLECT, history->failed_tag);
        history->owned &= ~(UINT32_C(1) << history->failed_tag);
    }
    if (history->owned)
        put_tag(history, RECORD_RESET, 0);
    history->owned = 0;
    history->seen = next_number(&device->hba);
}

void history_follow(struct device *device, uint64_t entries, bool has_recovered) {
    struct history *history = &device->history;
    ahci_entry entry;
    for (; history->scribe.is_on && ahci_hba_entry(&device->hba, history->seen, &entry) == AHCI_OK; history->seen++)
        put_entry(device, &entry);
    if (entries) {
        log_line("the queue's journal of %" PRIu64 " entries was handed out", entries);
        history->bytes = 0;
        put_end(device, has_recovered);
    }
    scribe_hand_over(&history->scribe, entries != 0);
}

/* ---- a loss of power ---- */

/* Records sectors that are in a run of pages, as a disk has them. */
static void put_left(struct scribe *scribe, const struct disk *left, struct page_run run) {
    const uint64_t last = ((uint64_t)run.first + run.count) * PAGE_SECTORS, end = last < left->sectors ? last : left->sectors;
    for (uint64_t lba = (uint64_t)run.first * PAGE_SECTORS, count; lba < end; lba += count) {
        count = end - lba < RUN_SECTORS ? end - lba : RUN_SECTORS;
        const struct record_entry it = {.kind = RECORD_LEFT, .count = (uint32_t)count, .lba = lba};
        uint8_t *behind = scribe_put(scribe, it, (size_t)count * SECTOR_BYTES);
        for (uint32_t at = 0; behind && at < count; at++)
            left->copy(left->it, (uint32_t)lba + at, behind + (size_t)at * SECTOR_BYTES);
    }
}

void history_lose(struct device *device, const struct disk *left, const struct pages *pages) {
    struct history *history = &device->history;
    put_tag(history, RECORD_LOSS, 0);
    for (size_t at = 0; at < pages->count; at++)
        put_left(&history->scribe, left, pages->runs[at]);
    history->owned = 0;
    history->bytes = 0;
}

bool history_is_kept(struct history *history) {
    return scribe_is_kept(&history->scribe);
}

bool history_waits(const struct history *history) {
    return history->scribe.waits;
}

/* Waits until the record has the loss, unless the sectors are copied for a part that begins after it. */
void history_go_on(struct device *device) {
    struct history *history = &device->history;
    history->seen = next_number(&device->hba);
    scribe_copy_anew(&history->scribe);
    while (!history_copies(history) && !history_is_kept(history)) {
        struct pollfd written = {.fd = history_event(history), .events = POLLIN};
        poll(&written, 1, -1);
        history_take_event(history);
    }
}

/* ---- the journal's size ---- */

static uint64_t bytes_of(const struct command *command) {
    return command->writes ? (uint64_t)command->sectors * AHCI_SECTOR_BYTES : 0;
}

void history_count(struct device *device, uint32_t slot, uint8_t step) {
    if (step == AHCI_STEP_SEND)
        device->history.bytes += ENTRY_BYTES + bytes_of(&device->tasks[slot].command);
    else if (step == AHCI_STEP_EXECUTE)
        device->history.bytes += ENTRY_BYTES;
}

static bool is_large(const struct device *device) {
    return device->history.bytes >= device->settings->most_journal;
}

/* Whether the next step of a slot's command sends a command or makes sectors zeros, and the record's part has no room for it. */
static bool lacks_room(const struct device *device, uint32_t slot) {
    const struct command *command = &device->tasks[slot].command;
    const bool sends = device->state.next[slot] == AHCI_STEP_SEND;
    const uint32_t zeros = device->zeros[slot].sectors;
    if (!sends && !zeros)
        return false;
    return !scribe_has_room(&device->history.scribe, record_bytes_of(device->disk.sectors, sends && command->writes, sends ? command->sectors : zeros));
}

/* Whether the record's part has no room for the next steps of some slots. */
static bool is_full(const struct device *device, uint32_t slots) {
    for (; slots; slots &= slots - 1)
        if (lacks_room(device, (uint32_t)__builtin_ctz(slots)))
            return true;
    return false;
}

/* While a command is stalled on purpose its request has no end. So nothing waits then, unless the record would have more bytes than it may. */
bool history_drains(const struct device *device, uint32_t sends) {
    if (is_full(device, sends) && (device->settings->record_limit || !device->stalled))
        return true;
    return is_large(device) && !device->stalled;
}

static bool is_idle(struct device *device) {
    ahci_state state;
    device_must("ahci_hba_port", ahci_hba_port(&device->hba, &state));
    for (uint32_t slot = 0; slot < AHCI_MOST_TAGS; slot++)
        if (state.phases[slot] != AHCI_PHASE_FREE)
            return false;
    return true;
}

bool history_trim(struct device *device) {
    uint64_t entries = 0;
    uint32_t status = ahci_hba_trim(&device->hba, &entries);
    if (status == AHCI_BUSY)
        return false;
    device_must("ahci_hba_trim", status);
    put_tag(&device->history, RECORD_TRIM, 0);
    device->history.bytes = 0;
    return true;
}

bool history_settle(struct device *device) {
    struct scribe *scribe = &device->history.scribe;
    bool is_part_full = is_full(device, UINT32_MAX);
    if ((!is_large(device) && !is_part_full) || !is_idle(device))
        return true;
    if (is_large(device))
        history_trim(device);
    if (is_part_full && !scribe_next_part(scribe, &device->disk))
        device_starve(device);
    return !is_part_full;
}

bool history_copies(const struct history *history) {
    return history->scribe.is_copying;
}

void history_copy(struct history *history) {
    scribe_copy(&history->scribe);
}

int history_event(const struct history *history) {
    return history->scribe.worker.done;
}

void history_take_event(struct history *history) {
    scribe_take(&history->scribe);
}

/* ---- beginning and end ---- */

int history_begin_anew(struct device *device, const char *folder) {
    device->history = (struct history){.seen = next_number(&device->hba)};
    return scribe_begin(&device->history.scribe, folder, device->settings->record_limit, &device->disk, AHCI_MOST_TAGS);
}

int history_begin(struct device *device) {
    return history_begin_anew(device, device->settings->record);
}

int history_end(struct history *history) {
    return scribe_end(&history->scribe);
}
