#include "driver.h"

#include "device.h"
#include "generator.h"
#include "say.h"

#include <errno.h>
#include <inttypes.h>
#include <stdlib.h>
#include <string.h>
#include <time.h>

#define ENTRY_BYTES 256 /* about what the journal's entries of one command take, without a write's bytes */

static uint8_t nothing[1]; /* where no bytes are handed over */

void driver_must(const char *call, uint32_t status) {
    if (status == AHCI_OK)
        return;
    say("%s was refused: status %" PRIu32 " of ahci.h", call, status);
    abort();
}

static uint32_t bit_of(uint32_t tag) {
    return UINT32_C(1) << tag;
}

/* ---- requests ---- */

static void append(struct driver *driver, struct request *list) {
    *driver->last = list;
    while (*driver->last)
        driver->last = &(*driver->last)->next;
}

static struct request *pop(struct driver *driver) {
    struct request *it = driver->first;
    driver->first = it->next;
    if (!driver->first)
        driver->last = &driver->first;
    return it;
}

static void answer(struct driver *driver, struct request *it, int outcome) {
    it->outcome = outcome;
    it->next = driver->answered;
    driver->answered = it;
}

void driver_take(struct driver *driver) {
    append(driver, gate_take(&driver->gate));
}

struct request *driver_answered(struct driver *driver) {
    struct request *list = driver->answered;
    record_sync(&driver->record);
    driver->answered = NULL;
    return list;
}

void driver_wake(struct request *answered) {
    while (answered) {
        struct request *next = answered->next;
        sem_post(&answered->answered); /* the request is gone from here on */
        answered = next;
    }
}

/* Makes the thread of the oldest request that has come in the player. */
static void hand_over(struct driver *driver) {
    driver_take(driver);
    driver->first->plays = true;
    sem_post(&driver->first->answered);
}

/* Plays until nothing is left; after some rounds another thread goes on, so that this one's client gets its answer. */
static void play(struct driver *driver) {
    for (unsigned round = 1;; round++) {
        driver_take(driver);
        while (driver->first || driver->owned) {
            driver_issue(driver);
            device_step(driver);
        }
        struct request *answered = driver_answered(driver);
        bool is_over = gate_leave(&driver->gate);
        if (!is_over && round == 4) {
            hand_over(driver);
            is_over = true;
        }
        driver_wake(answered);
        if (is_over)
            return;
    }
}

int driver_submit(struct driver *driver, struct request *mine) {
    mine->plays = false; /* it may have been true for an earlier part */
    sem_init(&mine->answered, 0, 0);
    bool plays = gate_enter(&driver->gate, mine);
    if (!plays) {
        gate_wait(mine, !driver->has_thread);
        plays = mine->plays;
    }
    if (plays)
        play(driver);
    sem_destroy(&mine->answered);
    return mine->outcome;
}

/* ---- commands ---- */

/* Issues the command of a request by a tag, and returns a status. */
static uint32_t issue_by(struct driver *driver, uint32_t tag, struct request *it, uint64_t *number) {
    size_t count = (size_t)it->sectors * AHCI_SECTOR_BYTES;
    if (it->kind == REQUEST_READ)
        return ahci_port_submit(&driver->port, tag, AHCI_READ, it->lba, it->sectors, nothing, 0, number);
    return ahci_port_submit(&driver->port, tag, it->fua ? AHCI_WRITE_FUA : AHCI_WRITE, it->lba, it->sectors, it->from, count, number);
}

static void issue(struct driver *driver, struct request *it) {
    uint32_t tag = (uint32_t)__builtin_ctz(~driver->owned);
    struct command *command = &driver->commands[tag];
    *command = (struct command){.request = it};
    bool has_room = it->kind == REQUEST_READ || mapped_reserve(&driver->settings->mapped, AHCI_MOST_TAGS); /* for all that are outstanding */
    uint32_t status = has_room ? issue_by(driver, tag, it, &command->number) : AHCI_OUT_OF_MEMORY;
    if (status == AHCI_OUT_OF_MEMORY) {
        answer(driver, it, ENOMEM);
        return;
    }
    driver_must("a command", status);
    bool writes = it->kind == REQUEST_WRITE;
    command->serial = ++driver->counts.commands;
    driver->owned |= bit_of(tag);
    driver->issued |= bit_of(tag);
    driver->journal += ENTRY_BYTES + (writes ? (uint64_t)it->sectors * AHCI_SECTOR_BYTES : 0);
    record_command(&driver->record, writes, tag, it->lba, it->sectors, it->fua, it->from);
}

static void trim(struct driver *driver) {
    uint64_t entries;
    driver_must("ahci_port_trim", ahci_port_trim(&driver->port, &entries));
    record_tag(&driver->record, RECORD_TRIM, 0);
    driver->counts.trims++;
    driver->journal = 0;
}

/* What a request may add to the record. */
static uint64_t bytes_of(const struct driver *driver, const struct request *it) {
    return record_bytes_of(driver->disk.sectors, it->kind == REQUEST_WRITE, it->sectors);
}

/* Every slot is free: writes the image back. A port over the image is trimmed before: it keeps each page that was written, and reads none of them from the image
   again. */
static int write_back(struct driver *driver) {
    if (!mapped_is_changed(&driver->settings->mapped))
        return 0;
    if (driver->is_over)
        trim(driver);
    return mapped_write(&driver->settings->mapped, &driver->disk);
}

/* With sync=flush what a flush or a write with FUA covers is in the image before it is answered. */
static int made_safe(struct driver *driver) {
    return driver->settings->sync == SYNC_FLUSH ? write_back(driver) : 0;
}

/* One write-back is for all writes with FUA that are done. */
static void make_all_safe(struct driver *driver) {
    int why = made_safe(driver);
    while (driver->unsafe) {
        struct request *it = driver->unsafe;
        driver->unsafe = it->next;
        answer(driver, it, why);
    }
}

static void flush(struct driver *driver, struct request *it) {
    uint32_t status = ahci_port_flush(&driver->port);
    if (status == AHCI_OUT_OF_MEMORY) {
        answer(driver, it, ENOMEM);
        return;
    }
    driver_must("ahci_port_flush", status);
    record_tag(&driver->record, RECORD_FLUSH, 0);
    driver->journal += ENTRY_BYTES;
    answer(driver, it, made_safe(driver));
}

/* Every slot is free: the time for what needs that. */
static void settle(struct driver *driver) {
    if (driver->journal >= driver->settings->most_journal)
        trim(driver);
    if (!record_has_room(&driver->record, bytes_of(driver, driver->first)))
        record_next_part(&driver->record);
}

/* Whether the next command waits until every slot is free. */
static bool must_wait(const struct driver *driver) {
    return driver->unsafe || driver->first->kind == REQUEST_FLUSH || driver->journal >= driver->settings->most_journal || !record_has_room(&driver->record, bytes_of(driver, driver->first));
}

void driver_issue(struct driver *driver) {
    uint32_t all = driver->settings->depth == 32 ? UINT32_MAX : bit_of(driver->settings->depth) - 1;
    while (driver->first) {
        if (!driver->owned)
            settle(driver);
        else if (driver->owned == all || must_wait(driver))
            return;
        struct request *it = pop(driver);
        if (it->kind == REQUEST_FLUSH)
            flush(driver, it);
        else
            issue(driver, it);
    }
}

void driver_collect(struct driver *driver, uint32_t tag) {
    struct command *command = &driver->commands[tag];
    struct request *it = command->request;
    bool reads = it->kind == REQUEST_READ;
    size_t room = reads ? (size_t)it->sectors * AHCI_SECTOR_BYTES : 0;
    ahci_reply reply;
    driver_must("ahci_port_collect", ahci_port_collect(&driver->port, tag, command->number, &reply, reads ? it->into : nothing, room));
    record_tag(&driver->record, RECORD_COLLECT, tag);
    driver->owned &= ~bit_of(tag);
    driver->accepted &= ~bit_of(tag);
    if (reply.outcome == AHCI_DID_WRITE)
        mapped_wrote(&driver->settings->mapped, (uint32_t)it->lba, it->sectors);
    if (it->fua && reply.outcome == AHCI_DID_WRITE && driver->settings->sync == SYNC_FLUSH) {
        it->next = driver->unsafe;
        driver->unsafe = it;
    } else
        answer(driver, it, reply.outcome == AHCI_DID_FAIL ? EIO : 0);
    if (!driver->owned && driver->unsafe)
        make_all_safe(driver);
}

/* Recovery needs some memory, and nothing else can go on before it. */
static uint32_t recover(struct driver *driver) {
    const struct timespec wait = {.tv_nsec = 10000000};
    uint32_t tag, status;
    bool is_said = false;
    while ((status = ahci_port_recover(&driver->port, &tag)) == AHCI_OUT_OF_MEMORY) {
        if (!is_said)
            note("no memory for the recovery from a failure; it is tried again");
        is_said = true;
        nanosleep(&wait, NULL);
    }
    driver_must("ahci_port_recover", status);
    return tag;
}

void driver_recover(struct driver *driver) {
    ahci_tag_sets sets;
    uint32_t failed = recover(driver);
    record_tag(&driver->record, RECORD_RECOVER, 0);
    driver->counts.recoveries++;
    driver_must("ahci_port_tag_sets", ahci_port_tag_sets(&driver->port, &sets));
    for (uint32_t held = sets.held; held; held &= held - 1) {
        uint32_t tag = (uint32_t)__builtin_ctz(held);
        driver_must("ahci_port_reissue", ahci_port_reissue(&driver->port, tag));
        record_tag(&driver->record, RECORD_REISSUE, tag);
    }
    driver->issued = sets.issued | sets.held;
    driver->accepted = sets.accepted;
    driver_collect(driver, failed);
}

/* ---- beginning and end ---- */

static void copy_sector(void *port, uint32_t lba, uint8_t *sector) {
    driver_must("ahci_port_copy", ahci_port_copy(port, lba, sector, AHCI_SECTOR_BYTES));
}

/* Makes a port that has the whole disk in memory. */
static uint32_t make_whole(ahci_port *port, const struct settings *settings) {
    const struct mapped *mapped = &settings->mapped;
    size_t size = (size_t)settings->sectors * AHCI_SECTOR_BYTES;
    if (!mapped->length)
        return ahci_port_new_zeros(port, settings->sectors, settings->depth);
    uint8_t *bytes = mapped_copy(mapped, settings->sectors);
    if (!bytes)
        return AHCI_OUT_OF_MEMORY;
    uint32_t status = ahci_port_new(port, bytes, size, settings->depth);
    free(bytes);
    return status;
}

/* Makes the port with the sectors of the image, or with zeros if there is none. A small disk is in memory, since writes are faster there; the others are over
   the image. */
static int make_port(struct driver *driver, struct settings *settings) {
    static const uint8_t zero;
    struct mapped *mapped = &settings->mapped;
    if (mapped_map(mapped))
        return -1;
    driver->is_over = settings->sectors > AHCI_MOST_SECTORS;
    uint32_t status = driver->is_over ? ahci_port_over(&driver->port, mapped->length ? mapped->bytes : &zero, mapped->length, settings->sectors, settings->depth, 0)
                                      : make_whole(&driver->port, settings);
    if (status == AHCI_OK)
        return 0;
    say("the port can't be made: status %" PRIu32 " of ahci.h", status);
    return -1;
}

int driver_begin(struct driver *driver, struct settings *settings) {
    *driver = (struct driver){.settings = settings, .has_thread = settings_have_waits(settings), .random = generator_of(settings->seed)};
    driver->last = &driver->first;
    driver->disk = (struct disk){.it = &driver->port, .sectors = settings->sectors, .copy = copy_sector};
    gate_begin(&driver->gate);
    if (make_port(driver, settings))
        return -1;
    return record_begin(&driver->record, settings->record, settings->record_limit, &driver->disk, settings->depth);
}

int driver_end(struct driver *driver) {
    int why = write_back(driver);
    record_end(&driver->record);
    ahci_port_free(&driver->port);
    gate_end(&driver->gate);
    return why ? -1 : 0;
}
