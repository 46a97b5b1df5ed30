#include "moving.h"

#include "device.h"
#include "log.h"

#include <inttypes.h>
#include <stdio.h>
#include <stdlib.h>

#define FIS_RUN 1 /* of the runs of a command, counted from 0: its header comes before */

/* Room for a run; NULL if there is no memory. */
static uint8_t *room_for(struct device *device, uint64_t bytes) {
    if (bytes > device->room) {
        uint8_t *room = realloc(device->buffer, (size_t)bytes);
        if (!room)
            return NULL;
        device->buffer = room;
        device->room = (size_t)bytes;
    }
    return device->buffer;
}

/* The memory has met wrong data, as a script says. */
static void report_spoiled(struct device *device) {
    log_line("wrong data at %" PRIx64 ", %" PRIu64 " bytes", device->state.address, device->state.length);
    device_must("ahci_hba_spoiled", ahci_hba_spoiled(&device->hba));
    device->mute = true;
}

static void report_unmapped(struct device *device) {
    log_line("no memory at %" PRIx64 ", %" PRIu64 " bytes", device->state.address, device->state.length);
    device_must("ahci_hba_unmapped", ahci_hba_unmapped(&device->hba));
    device->mute = true;
}

/* A run could not be moved. If its address is no memory, the driver's is wrong; else what backs the memory has failed. */
static void find_unmapped(struct device *device, bool writes) {
    if (!memory_is_there(device->memory, writes, device->state.address, (size_t)device->state.length))
        judge_unmapped(&device->judge, device->state.address, device->state.length);
    report_unmapped(device);
}

/* Whether a script says that there is no memory for this run, or that it meets wrong data. */
static bool is_provoked(struct device *device) {
    struct provoked *it = &device->provoked;
    const bool is_gone = it->no_memory, is_spoiled = it->memory_error && !is_gone;
    it->no_memory = false;
    it->memory_error = it->memory_error && !is_spoiled;
    if (is_gone)
        report_unmapped(device);
    if (is_spoiled)
        report_spoiled(device);
    return is_gone || is_spoiled;
}

/* Keeps what the command asks, and logs its FIS. */
static void note_command(struct device *device, const uint8_t *fis) {
    char text[2 * COMMAND_FIS_BYTES + 1];
    struct command command = command_of(fis);
    device->tasks[device->reading] = (struct task){.command = command, .number = command.sectors ? ++device->commands : 0};
    if (!log_is_open())
        return;
    for (unsigned i = 0; i < COMMAND_FIS_BYTES; i++)
        snprintf(text + 2 * i, 3, "%02x", fis[i]);
    log_line("command %" PRIu32 " %s", device->reading, text);
}

/* What became of a run. */
enum run { RUN_MOVED, RUN_WITHOUT_ROOM, RUN_LATER };

/* Reads the run that the controller asks for. */
static enum run move_in(struct device *device) {
    size_t count = (size_t)device->state.length;
    uint8_t *bytes = room_for(device, count);
    if (!bytes)
        return RUN_WITHOUT_ROOM;
    enum moved moved = memory_move(device->memory, false, device->state.address, bytes, count);
    if (moved == MOVED_LATER)
        return RUN_LATER;
    if (moved == MOVED_NOTHING) {
        find_unmapped(device, false);
        return RUN_MOVED;
    }
    uint32_t status = ahci_hba_supply(&device->hba, bytes, count);
    if (status == AHCI_OUT_OF_MEMORY)
        return RUN_WITHOUT_ROOM;
    device_must("ahci_hba_supply", status);
    judge_run(&device->judge, &device->hba, device->reading, device->state.address, bytes, count);
    if (device->runs++ == FIS_RUN && count == COMMAND_FIS_BYTES)
        note_command(device, bytes);
    return RUN_MOVED;
}

/* Writes the run that the controller has. What it answers is in the record before. */
static enum run move_out(struct device *device) {
    size_t count = (size_t)device->state.length;
    uint8_t *bytes = room_for(device, count);
    if (!bytes)
        return RUN_WITHOUT_ROOM;
    if (!history_is_kept(&device->history))
        return RUN_LATER;
    device_must("ahci_hba_bytes", ahci_hba_bytes(&device->hba, bytes, count));
    provoke_bytes(device, bytes, count);
    enum moved moved = memory_move(device->memory, true, device->state.address, bytes, count);
    if (moved == MOVED_LATER)
        return RUN_LATER;
    provoke_written(device, count);
    if (moved == MOVED_ALL)
        device_must("ahci_hba_written", ahci_hba_written(&device->hba));
    else
        find_unmapped(device, true);
    return RUN_MOVED;
}

bool move(struct device *device) {
    enum run run = RUN_MOVED;
    while (run == RUN_MOVED && device->state.want != AHCI_WANT_NOTHING) {
        run = is_provoked(device) ? RUN_MOVED : device->state.want == AHCI_WANT_READ ? move_in(device) : move_out(device);
        device_look(device);
    }
    if (run == RUN_WITHOUT_ROOM)
        device_starve(device);
    return run == RUN_MOVED;
}
