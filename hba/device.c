#include "device.h"

#include "fate.h"
#include "generator.h"
#include "log.h"
#include "moving.h"
#include "say.h"

#include <inttypes.h>
#include <stdio.h>
#include <stdlib.h>
#include <time.h>

#define SECOND UINT64_C(1000000000)
#define RETRY_MILLISECONDS 10 /* until a step that got no memory is tried again */

uint64_t device_now(void) {
    struct timespec it;
    clock_gettime(CLOCK_MONOTONIC, &it);
    return (uint64_t)it.tv_sec * SECOND + (uint64_t)it.tv_nsec;
}

void device_must(const char *call, uint32_t status) {
    if (status == AHCI_OK)
        return;
    say("%s was refused: status %" PRIu32 " of ahci.h", call, status);
    abort();
}

void device_look(struct device *device) {
    device_must("ahci_hba_look", ahci_hba_look(&device->hba, &device->state));
    step_look(device);
    provoke_signature(device);
}

/* Says once what the device does without memory. */
static void say_starved(const struct device *device) {
    char most[32] = "";
    if (device->settings->memory_wait)
        snprintf(most, sizeof most, ", for %" PRIu32 " s at most", device->settings->memory_wait);
    note("there is no memory; the device tries again every %d ms%s", RETRY_MILLISECONDS, most);
}

void device_starve(struct device *device) {
    const uint64_t now = device_now(), most = SECOND * device->settings->memory_wait;
    if (!device->starved)
        say_starved(device);
    if (!device->starves_since)
        device->starves_since = now;
    if (most && !device->gives_up && now - device->starves_since >= most) {
        say("there has been no memory for %" PRIu32 " s, and the program ends", device->settings->memory_wait);
        device->gives_up = true;
    }
    device->starved = true;
    device->wait = WAIT_MEMORY;
    device->due = now + RETRY_MILLISECONDS * (SECOND / 1000);
}

/* ---- which step ---- */

/* The slots that can go on. */
struct choice {
    uint32_t early;   /* with a step that answers nothing yet: it is taken at once, so that the queue is as deep as the driver makes it */
    bool delivers;    /* one of them assembles an answer, which may take effect without a write to the guest's memory */
    uint32_t answers; /* with a step that answers the command */
    uint64_t soonest; /* when the first slow command can go on, or UINT64_MAX */
};

static struct choice choice_of(const struct device *device) {
    struct choice choice = {.soonest = UINT64_MAX};
    uint64_t then = script_has(device->settings->script, EVENT_SLOW) ? device_now() : UINT64_MAX;
    uint32_t sends = 0;
    for (uint32_t slot = 0; slot < AHCI_MOST_TAGS; slot++) {
        uint8_t kind = device->state.next[slot];
        uint32_t bit = UINT32_C(1) << slot & ~(device->stuck | device->stalled | device->flushing);
        uint64_t ready = kind == AHCI_STEP_FETCH ? 0 : device->tasks[slot].ready; /* before a fetch it is that of the slot's last command */
        if (kind == AHCI_STEP_NONE || !bit)
            continue;
        if (ready > then)
            choice.soonest = ready < choice.soonest ? ready : choice.soonest;
        else if (kind == AHCI_STEP_SEND)
            sends |= bit;
        else if (step_answers(device, slot))
            choice.answers |= bit;
        else
            choice.early |= bit;
        choice.delivers |= kind == AHCI_STEP_DELIVER;
    }
    bool goes_on = choice.early || choice.answers || choice.soonest != UINT64_MAX || device->stalled || device->flushing;
    if (!goes_on || !history_drains(device, sends))
        choice.early |= sends;
    return choice;
}

/* Whether the device has waited for as long as --delay says. */
static bool has_waited(struct device *device) {
    const struct delay *delay = &device->settings->delay;
    if (!delay->least && !delay->jitter)
        return true;
    if (device->wait != WAIT_DELAY) {
        device->wait = WAIT_DELAY;
        device->due = device_now() + 1000 * delay_drawn(delay, &device->random);
    }
    return device_now() >= device->due;
}

/* Chooses the slot that goes on. */
static bool choose(struct device *device, uint32_t *slot) {
    struct choice choice = choice_of(device);
    if (!choice.early && (!choice.answers || !has_waited(device)))
        return false;
    if (choice.delivers && !history_is_kept(&device->history))
        return false;
    uint64_t draw = pick_draw(device->settings->pick, &device->random, device->next);
    device_must("ahci_choose_tag", ahci_choose_tag(device->settings->pick, choice.early ? choice.early : choice.answers, draw, slot));
    if (!choice.early) {
        device->wait = WAIT_NOTHING;
        device->next = *slot + 1; /* an early step doesn't move it: a command that is fetched would put others off */
    }
    return true;
}

/* ---- the turn ---- */

/* Takes the next step with a slot's command, or fails it. */
static void go_on(struct device *device, uint32_t slot) {
    if (fate_fails(device, slot))
        history_follow(device, 0, false);
    else
        step_take(device, slot);
}

static bool can_sign(const struct device *device) {
    uint64_t due = provoke_signs(device);
    return due == 0 || (due != UINT64_MAX && device_now() >= due);
}

static void sign(struct device *device) {
    static const char *const names[] = {"", " of a packet device", " of an enclosure bridge", " of a port multiplier"};
    const ahci_device_kind kind = device->provoked.kind;
    device->provoked.kind = AHCI_DEVICE_DISK;
    device_must("ahci_hba_sign_as", ahci_hba_sign_as(&device->hba, (uint32_t)kind));
    log_line("signature%s", names[kind]);
}

static bool copies(const struct device *device) {
    return device->writeback.state == WRITEBACK_COPIES || history_copies(&device->history);
}

/* Copies sectors for a thread. */
static void copy(struct device *device) {
    if (device->writeback.state == WRITEBACK_COPIES)
        writeback_copy(&device->writeback);
    if (history_copies(&device->history))
        history_copy(&device->history);
}

/* Whether no step can be taken before something else has come: a part of the guest's memory, or the record. */
static bool is_held(const struct device *device) {
    return memory_waits(device->memory) || history_copies(&device->history) || history_waits(&device->history);
}

void device_turn(struct device *device) {
    uint32_t slot;
    if (device_waits(device) != 0)
        return;
    copy(device);
    if (is_held(device))
        return;
    if (device->wait == WAIT_MEMORY)
        device->wait = WAIT_NOTHING;
    if (!move(device))
        return;
    fate_decide(device);
    if (!history_settle(device))
        return;
    if (can_sign(device))
        sign(device);
    else if (choose(device, &slot))
        go_on(device, slot);
    device_look(device);
    if (move(device) && device->wait != WAIT_MEMORY)
        device->starves_since = 0;
}

/* When the next step is due, in nanoseconds of CLOCK_MONOTONIC; UINT64_MAX if there is none. */
static uint64_t next_due(const struct device *device) {
    if (copies(device))
        return 0;
    if (is_held(device))
        return UINT64_MAX;
    struct choice choice = choice_of(device);
    bool is_urgent = device->state.want != AHCI_WANT_NOTHING || can_sign(device) || choice.early;
    if (is_urgent)
        return device->wait == WAIT_MEMORY ? device->due : 0;
    if (choice.answers)
        choice.soonest = device->wait == WAIT_NOTHING ? 0 : device->due;
    uint64_t signs = provoke_signs(device);
    return signs < choice.soonest ? signs : choice.soonest;
}

int64_t device_waits(const struct device *device) {
    uint64_t due = next_due(device);
    if (due == UINT64_MAX)
        return -1;
    uint64_t then = due ? device_now() : 0;
    return then >= due ? 0 : (int64_t)(due - then);
}

/* ---- the image, and what threads do ---- */

bool device_can_save(struct device *device) {
    return !device->is_over || history_trim(device);
}

void device_save(struct device *device) {
    struct writeback *writeback = &device->writeback;
    if (!mapped_is_changed(&device->settings->mapped) || writeback->state != WRITEBACK_NONE || !device_can_save(device) || !writeback_start(writeback))
        return;
    while (writeback->state == WRITEBACK_COPIES)
        writeback_copy(writeback);
}

/* Takes the end of a write-back: the flushes that wait for it go on. */
static void take_written(struct device *device) {
    int failed;
    if (!writeback_take(&device->writeback, &failed))
        return;
    for (uint32_t slots = device->covered; slots; slots &= slots - 1)
        device->tasks[__builtin_ctz(slots)].kept = failed ? KEPT_NOT : KEPT;
    device->flushing = device->covered = 0;
}

unsigned device_watch(const struct device *device, struct pollfd *files) {
    files[0] = (struct pollfd){.fd = device->writeback.worker.done, .events = POLLIN};
    files[1] = (struct pollfd){.fd = history_event(&device->history), .events = POLLIN};
    return DEVICE_FILES;
}

void device_take_events(struct device *device, const struct pollfd *files) {
    if (files[0].revents)
        take_written(device);
    if (files[1].revents)
        history_take_event(&device->history);
}

/* ---- the beginning and the end ---- */

static void copy_sector(void *hba, uint32_t lba, uint8_t *sector) {
    device_must("ahci_hba_copy", ahci_hba_copy(hba, lba, sector, AHCI_SECTOR_BYTES));
}

static uint32_t make_over(ahci_hba *hba, const struct settings *settings) {
    static const uint8_t zero;
    const struct mapped *mapped = &settings->mapped;
    return ahci_hba_over(hba, mapped->length ? mapped->bytes : &zero, mapped->length, settings->sectors, settings->depth, &settings->capabilities);
}

static uint32_t make_whole(ahci_hba *hba, const struct settings *settings) {
    uint8_t *bytes = mapped_copy(&settings->mapped, settings->sectors);
    if (!bytes)
        return AHCI_OUT_OF_MEMORY;
    uint32_t status = ahci_hba_new_with(hba, bytes, (size_t)settings->sectors * AHCI_SECTOR_BYTES, settings->depth, &settings->capabilities);
    free(bytes);
    return status;
}

/* A small disk is in memory, since writes are faster there; the others are over the image. */
int device_make(struct device *device) {
    struct settings *settings = device->settings;
    if (mapped_map(&settings->mapped))
        return -1;
    device->is_over = settings->sectors > AHCI_MOST_SECTORS;
    device->is_out = false;
    uint32_t status = device->is_over ? make_over(&device->hba, settings) : make_whole(&device->hba, settings);
    if (status == AHCI_OK) {
        device_must("ahci_hba_identity", ahci_hba_identity(&device->hba, &settings->identity));
        device_must("ahci_hba_write_cache", ahci_hba_write_cache(&device->hba, settings->write_cache));
        device_must("ahci_hba_trim_zeros", ahci_hba_trim_zeros(&device->hba, settings->trim_zeros));
        return 0;
    }
    say("the controller can't be made: status %" PRIu32 " of ahci.h", status);
    return -1;
}

int device_begin(struct device *device, struct settings *settings, struct memory *memory) {
    *device = (struct device){.settings = settings, .memory = memory, .hba = AHCI_HBA_EMPTY, .random = generator_of(settings->seed), .started = device_now(),
                               .slow.reads = settings->slow_bits};
    device->disk = (struct disk){.it = &device->hba, .sectors = settings->sectors, .copy = copy_sector};
    if (device_make(device))
        return -1;
    cache_begin(&device->cache, &device->disk, script_has(settings->script, EVENT_POWER_LOSS));
    if (history_begin(device)) {
        ahci_hba_free(&device->hba);
        return -1;
    }
    judge_begin(&device->judge, settings, memory);
    writeback_begin(&device->writeback, &settings->mapped, &device->disk);
    device_look(device);
    script_begin(settings->script);
    return 0;
}

int device_end(struct device *device, int *broken) {
    writeback_end(&device->writeback);
    int failed = mapped_write(&device->settings->mapped, &device->disk) ? -1 : 0;
    if (history_end(&device->history) || other_end(&device->other))
        failed = -1;
    *broken = judge_end(&device->judge);
    if (*broken < 0)
        failed = -1;
    ahci_hba_free(&device->hba);
    cache_clear(&device->cache);
    free(device->buffer);
    return failed;
}
