#include "fate.h"

#include "device.h"
#include "log.h"

#include <inttypes.h>

#define STATUS_ERR 1

/* Whether the moment has come at which the script is asked about the command of a slot. */
static bool is_moment(const struct device *device, uint32_t slot) {
    const struct task *task = &device->tasks[slot];
    uint8_t kind = device->state.next[slot];
    if (task->is_decided || !task->command.is_command)
        return false;
    return task->command.queued ? kind == AHCI_STEP_SERVE : kind == AHCI_STEP_SEND || kind == AHCI_STEP_EXECUTE || kind == AHCI_STEP_RECOVER;
}

/* The first sector of a command that a line is about. */
static uint64_t sector_of(const struct line *line, const struct command *command) {
    return line->first_lba > command->lba ? line->first_lba : command->lba;
}

/* The command of a slot is not answered any more. */
static void stall(struct device *device, uint32_t slot, const struct line *line) {
    const struct command *command = &device->tasks[slot].command;
    device->stalled |= UINT32_C(1) << slot;
    recovery_event(&device->judge, &device->hba, EVENT_STALL, line->row, NO_SLOT);
    if (command->sectors)
        log_line("stall %" PRIu32 " at sector %" PRIu64, slot, sector_of(line, command));
    else
        log_line("stall %" PRIu32, slot);
}

static void decide(struct device *device, uint32_t slot) {
    struct task *task = &device->tasks[slot];
    const struct command *command = &task->command;
    uint64_t time = device_now();
    const struct occasion occasion = {.code = command->code, .tag = (uint8_t)slot, .is_queued = command->queued, .writes = command->writes, .lba = command->lba, .sectors = command->sectors,
                                      .number = task->number, .since = (time - device->started) / 1000};
    task->is_decided = true;
    script_decide(device->settings->script, &occasion, &task->decided);
    const struct decision *stalls = &task->decided.of[EVENT_STALL], *slow = &task->decided.of[EVENT_SLOW];
    if (stalls->line)
        stall(device, slot, stalls->line);
    task->ready = slow->line ? time + 1000 * delay_drawn(&slow->event->delay, &slow->line->random) : 0;
}

void fate_decide(struct device *device) {
    if (!device->settings->script->count)
        return;
    for (uint32_t slot = 0; slot < AHCI_MOST_TAGS; slot++)
        if (is_moment(device, slot))
            decide(device, slot);
}

/* Fails a command with an error byte at an LBA, and returns the library's status. Without memory the device waits, and the caller tries again. */
static uint32_t fail_at(struct device *device, uint32_t slot, uint8_t error, uint64_t lba) {
    bool queued = device->tasks[slot].command.queued;
    uint32_t status = queued ? ahci_hba_fail(&device->hba, slot, error, lba) : ahci_hba_refuse(&device->hba, slot, error, lba);
    if (status == AHCI_OUT_OF_MEMORY)
        device_starve(device);
    return status;
}

/* Aborts a command that is not queued. It returns false if there is no memory for that now. */
static bool aborts(struct device *device, uint32_t slot) {
    uint32_t status = fail_at(device, slot, AHCI_ERROR_ABRT, 0);
    if (status == AHCI_OUT_OF_MEMORY)
        return false;
    device_must("ahci_hba_refuse", status);
    return true;
}

/* Logs that a command has failed by a line of the script. */
static void log_failure(const struct device *device, uint32_t slot, const struct decision *failure, uint64_t named) {
    const struct command *command = &device->tasks[slot].command;
    if (command->sectors)
        log_line("fail %" PRIu32 " with %02x at sector %" PRIu64 ", by the rule for %" PRIu64, slot, failure->event->error, named, sector_of(failure->line, command));
    else
        log_line("fail %" PRIu32 " with %02x", slot, failure->event->error);
}

/* Fails a command by a line of the script. The error of a read names the line's sector, and the sectors before it have moved; that of a write names its
   first one, since a write is stored whole or not at all. It returns false if the library doesn't let it. */
static bool fails_by_script(struct device *device, uint32_t slot) {
    struct task *task = &device->tasks[slot];
    const struct decision failure = task->decided.of[EVENT_FAIL];
    uint64_t named = task->command.writes || !task->command.sectors ? task->command.lba : sector_of(failure.line, &task->command);
    uint32_t status = fail_at(device, slot, failure.event->error, named);
    if (status == AHCI_OUT_OF_MEMORY)
        return true; /* the decision stays, and so it fails in a later turn */
    task->decided.of[EVENT_FAIL].line = NULL;
    if (status != AHCI_OK)
        return false;
    log_failure(device, slot, &failure, named);
    recovery_event(&device->judge, &device->hba, EVENT_FAIL, failure.line->row, slot);
    provoke_answer(device, slot);
    return true;
}

/* Begins a write-back for a flush, or writes by itself if there is no memory for that. It returns false if the flush can go on. */
static bool begin_write(struct device *device, uint32_t slot) {
    log_flush();
    if (!device_can_save(device))
        return false; /* the device aborts it, since a queued command is outstanding */
    if (writeback_start(&device->writeback)) {
        device->flushing = device->covered = UINT32_C(1) << slot;
        return true;
    }
    if (!mapped_write(&device->settings->mapped, &device->disk))
        return false;
    aborts(device, slot); /* without memory it is written again first, which may succeed */
    return true;
}

/* A flush waits for the write-back that has begun. It is enough if no command has written since. */
static bool wait_for_write(struct device *device, uint32_t slot) {
    uint32_t bit = UINT32_C(1) << slot;
    device->flushing |= bit;
    if (!mapped_is_changed(&device->settings->mapped))
        device->covered |= bit;
    return true;
}

/* The image is written back before a flush is answered; if that fails, so does the flush. Meanwhile it takes no step, and others go on. It returns
   false if the flush can go on. */
static bool holds_flush(struct device *device, uint32_t slot) {
    const struct settings *settings = device->settings;
    const struct task *task = &device->tasks[slot];
    if (settings->sync != SYNC_FLUSH || device->state.next[slot] != AHCI_STEP_EXECUTE || !task->command.flushes || task->kept == KEPT)
        return false;
    if (task->kept == KEPT_NOT) {
        aborts(device, slot);
        return true;
    }
    if (device->writeback.state != WRITEBACK_NONE)
        return wait_for_write(device, slot);
    return mapped_is_changed(&settings->mapped) && begin_write(device, slot);
}

/* Aborts a command that reads the log of a failed queued one, if --refuse-log says so. */
static bool refuses_log(struct device *device, uint32_t slot) {
    if (!device->settings->refuse_log || device->state.next[slot] != AHCI_STEP_RECOVER)
        return false;
    if (aborts(device, slot))
        log_line("the log is refused to %" PRIu32, slot);
    return true;
}

/* Ends a command that isn't queued with a status of the script, in place of doing it: a read has moved the sectors before the line's. It returns false if the
   library doesn't let it. */
static bool ends_by_script(struct device *device, uint32_t slot) {
    struct task *task = &device->tasks[slot];
    const struct decision end = task->decided.of[EVENT_END];
    const uint8_t word = end.event->error; /* the status */
    uint64_t named = task->command.writes || !task->command.sectors ? task->command.lba : sector_of(end.line, &task->command);
    uint32_t status = ahci_hba_end(&device->hba, slot, word, 0, named);
    if (status == AHCI_OUT_OF_MEMORY) {
        device_starve(device);
        return true;
    }
    task->decided.of[EVENT_END].line = NULL;
    if (status != AHCI_OK)
        return false;
    log_line("end %" PRIu32 " with status %02x, by line %u", slot, word, end.line->row);
    if (word & STATUS_ERR)
        recovery_event(&device->judge, &device->hba, EVENT_END, end.line->row, slot);
    provoke_answer(device, slot);
    return true;
}

/* Whether the script fails or ends a command. */
static bool is_ended(struct device *device, uint32_t slot) {
    const struct decisions *decided = &device->tasks[slot].decided;
    return (decided->of[EVENT_FAIL].line && fails_by_script(device, slot)) || (decided->of[EVENT_END].line && ends_by_script(device, slot));
}

bool fate_fails(struct device *device, uint32_t slot) {
    return is_ended(device, slot) || holds_flush(device, slot) || refuses_log(device, slot);
}
