#include "other.h"

#include "device.h"
#include "log.h"
#include "record.h"
#include "say.h"

#include <inttypes.h>
#include <stdio.h>
#include <string.h>

/* ---- before the start ---- */

/* How many sectors a file has for a disk; 0 once it was printed that it has none. It is opened when its disk is plugged in: another one may have it until then. */
static uint32_t sectors_of(const char *file) {
    struct image image = {.path = NULL};
    uint32_t sectors = 0;
    if (image_find(&image, file) || image_settle(&image, &sectors, LARGEST_DISK))
        sectors = 0;
    image_end(&image);
    return sectors;
}

/* Why an event of a script can't happen; NULL if it can. */
static const char *wrong_with(const struct settings *settings, const char *file, uint32_t *most) {
    uint32_t sectors = file ? sectors_of(file) : settings->sectors;
    if (!file && script_has(settings->script, EVENT_POWER_LOSS))
        return "another disk needs a file if there is a power_loss, for the sectors that it leaves";
    if (!sectors)
        return "its file can't be plugged in";
    if (settings->record_limit && settings->record_limit < record_least_limit(sectors, AHCI_MOST_COUNT))
        return "its disk needs a larger --record-limit";
    *most = sectors > *most ? sectors : *most;
    return NULL;
}

static int look_at_line(const struct settings *settings, const struct line *line, uint32_t *most) {
    for (unsigned at = 0; at < line->count; at++) {
        const struct event *event = &line->events[at];
        const char *why = event->is_other ? wrong_with(settings, line_file(line, event), most) : NULL;
        if (!why)
            continue;
        say("%s:%u: plug another: %s", settings->script->path, line->row, why);
        return -1;
    }
    return 0;
}

int other_check(const struct settings *settings, uint32_t *most) {
    const struct script *script = settings->script;
    int wrong = 0;
    for (unsigned at = 0; at < script->count; at++)
        if (look_at_line(settings, &script->lines[at], most))
            wrong = -1;
    return wrong;
}

/* ---- the disk that comes ---- */

/* Opens an image, and maps it. */
static int open_image(struct mapped *mapped, const char *file, uint32_t *sectors) {
    mapped_begin(mapped);
    if (!file)
        return 0;
    *sectors = 0;
    if (!image_find(&mapped->image, file) && !mapped_open(mapped) && !image_settle(&mapped->image, sectors, LARGEST_DISK) && !mapped_map(mapped))
        return 0;
    say("%s can't be plugged in: there is no disk", file);
    mapped_end(mapped);
    return -1;
}

/* The name of the disk that comes: its serial number counts the disks, and is not that of the one before. */
static ahci_identity next_identity(const ahci_identity *before, uint32_t count) {
    ahci_identity it = *before;
    char serial[sizeof it.serial + 1];
    for (uint32_t number = count + 1; !memcmp(it.serial, before->serial, sizeof it.serial); number++) {
        snprintf(serial, sizeof serial, "%-*.8" PRIu32, (int)sizeof it.serial, number);
        memcpy(it.serial, serial, sizeof it.serial);
    }
    return it;
}

static uint32_t plug_over(struct device *device, const struct mapped *mapped, uint32_t sectors, const ahci_identity *identity) {
    static const uint8_t zero;
    uint64_t entries = 0;
    return ahci_hba_plug_other(&device->hba, mapped->length ? mapped->bytes : &zero, mapped->length, sectors, device->settings->depth, identity, &entries);
}

/* ---- one goes, the other comes ---- */

/* The record of the disk that was pulled out ends, and that of the other one begins. */
static void change_record(struct device *device) {
    struct other *other = &device->other;
    const char *first = device->settings->record;
    if (history_end(&device->history))
        other->has_failed = true;
    int length = first ? snprintf(other->folder, sizeof other->folder, "%s.%" PRIu32, first, other->count + 1) : 0;
    if (length >= (int)sizeof other->folder) {
        say_of("record", first, "its name is too long for the record of another disk");
        other->has_failed = true;
        first = NULL;
    }
    if (history_begin_anew(device, first ? other->folder : NULL))
        other->has_failed = true;
}

/* The library has the other disk. */
static void change(struct device *device, const struct mapped *mapped, uint32_t sectors, const ahci_identity *identity) {
    struct settings *settings = device->settings;
    mapped_end(&settings->mapped);
    settings->mapped = *mapped;
    settings->sectors = device->disk.sectors = sectors;
    settings->identity = *identity;
    device->other.count++;
    device->is_over = true;
    device->is_out = false;
    cache_clear(&device->cache);
    recovery_exchange(&device->judge);
    change_record(device);
}

/* Plugs it in, once the image of the disk that was pulled out is written. */
static bool plug(struct device *device, struct mapped *mapped, uint32_t sectors) {
    const ahci_identity identity = next_identity(&device->settings->identity, device->other.count + 1);
    device_can_save(device); /* the queue has no request */
    if (mapped_write(&device->settings->mapped, &device->disk))
        device->other.has_failed = true;
    uint32_t status = plug_over(device, mapped, sectors, &identity);
    if (status == AHCI_OUT_OF_MEMORY) {
        say("there is no memory for another disk, and none is plugged in");
        mapped_end(mapped);
        return false;
    }
    device_must("ahci_hba_plug_other", status);
    change(device, mapped, sectors, &identity);
    log_line("another disk is plugged in: serial number %.*s, %" PRIu32 " sectors", (int)sizeof identity.serial, identity.serial, sectors);
    return true;
}

bool other_plug(struct device *device, const char *file) {
    struct mapped mapped;
    uint32_t sectors = device->settings->sectors;
    if (!device->is_out) {
        log_line("no other disk is plugged in, since one is");
        return false;
    }
    writeback_end(&device->writeback);
    bool is_in = !open_image(&mapped, file, &sectors) && plug(device, &mapped, sectors);
    writeback_begin(&device->writeback, &device->settings->mapped, &device->disk);
    device->other.has_failed |= !is_in;
    return is_in;
}

int other_end(const struct other *other) {
    return other->has_failed ? -1 : 0;
}
