#include "device.h"

#include "log.h"

#include <inttypes.h>

/* ---- the driver's accesses ---- */

uint64_t device_read(struct device *device, uint32_t offset, uint32_t bytes) {
    uint64_t value = 0;
    uint32_t status = ahci_hba_read(&device->hba, offset, bytes, &value);
    if (status != AHCI_OK)
        log_line("a read of %" PRIu32 " bytes at %03" PRIx32 " was refused: status %" PRIu32, bytes, offset, status);
    if (slow_is_on(&device->slow))
        value = slow_read(&device->slow, offset, bytes, value, device_now());
    judge_read(&device->judge, &device->hba, offset, bytes, value);
    return value;
}

/* A word of the controller's registers, as it is. */
static uint32_t word_at(struct device *device, uint32_t offset) {
    uint64_t word = 0;
    device_must("ahci_hba_read", ahci_hba_read(&device->hba, offset, 4, &word));
    return (uint32_t)word;
}

/* Forgets the run of memory that is moved by messages once the controller wants another one, or none: it has dropped the command. */
static void look_again(struct device *device) {
    const ahci_hba_state before = device->state;
    device_look(device);
    if (before.want != device->state.want || before.address != device->state.address || before.length != device->state.length)
        memory_forget(device->memory);
}

/* A command that waits for its rule or for the image waits no longer once the driver has dropped it. */
static void forget_dropped(struct device *device) {
    if (!(device->stalled | device->flushing))
        return;
    uint32_t outstanding = word_at(device, AHCI_REG_PXCI) | word_at(device, AHCI_REG_PXSACT);
    device->stalled &= outstanding;
    device->flushing &= outstanding;
    device->covered &= outstanding;
}

/* What follows from a write to a register, from power-on or from an event, which may have dropped commands: `entries` says whether the journal was handed
   out. */
static void follow(struct device *device, uint64_t entries) {
    device->stuck = 0;
    forget_dropped(device);
    device->mute = false;
    history_follow(device, entries, false);
    look_again(device);
}

void device_write(struct device *device, uint32_t offset, uint32_t bytes, uint64_t value) {
    const bool is_slow = slow_is_on(&device->slow);
    uint64_t entries = 0;
    judge_write(&device->judge, &device->hba, offset, bytes, value);
    uint32_t command = is_slow ? word_at(device, AHCI_REG_PXCMD) : 0;
    uint32_t status = ahci_hba_write(&device->hba, offset, bytes, value, &entries);
    if (status != AHCI_OK)
        log_line("a write of %" PRIu32 " bytes at %03" PRIx32 " was refused: status %" PRIu32, bytes, offset, status);
    if (is_slow)
        slow_write(&device->slow, offset, bytes, value, command, word_at(device, AHCI_REG_PXCMD), device_now());
    if (slow_sets(SLOW_HR, offset, bytes, value))
        device->provoked.is_due = false; /* another signature is due */
    follow(device, entries);
    if (device->settings->script->count)
        script_wrote(device->settings->script, offset, bytes, provoke_since(device));
}

void device_master(struct device *device, bool is_master) {
    judge_master(&device->judge, &device->hba, is_master);
}

void device_reset(struct device *device) {
    uint64_t entries = 0;
    device_must("ahci_hba_power_on", ahci_hba_power_on(&device->hba, &entries));
    slow_reset(&device->slow);
    device->provoked.is_due = false;
    follow(device, entries);
    judge_power_on(&device->judge);
}

/* ---- events ---- */

/* What follows from an event after which the disk has no command, whatever PxCI and PxSACT say. */
static void follow_loss(struct device *device, uint64_t entries) {
    device->stalled = device->flushing = device->covered = 0;
    follow(device, entries);
}

void device_lose_link(struct device *device) {
    uint64_t entries = 0;
    device_must("ahci_hba_lose_link", ahci_hba_lose_link(&device->hba, &entries));
    follow_loss(device, entries);
}

void device_find_link(struct device *device) {
    device_must("ahci_hba_find_link", ahci_hba_find_link(&device->hba));
    follow(device, 0);
}

void device_unplug(struct device *device) {
    uint64_t entries = 0;
    device_must("ahci_hba_unplug", ahci_hba_unplug(&device->hba, &entries));
    device->is_out = true;
    follow_loss(device, entries);
}

void device_plug(struct device *device) {
    device_must("ahci_hba_plug", ahci_hba_plug(&device->hba));
    device->is_out = false;
    follow(device, 0);
}

void device_plug_other(struct device *device, const char *file) {
    if (other_plug(device, file))
        follow_loss(device, 0);
}

void device_fail_interface(struct device *device, ahci_interface_error error, bool is_fatal) {
    device_must("ahci_hba_fail_interface", ahci_hba_fail_interface(&device->hba, (uint32_t)error, is_fatal));
    follow(device, 0);
}

static uint32_t receive(ahci_hba *hba, enum unasked fis) {
    static const uint8_t unknown[4] = {0x55}; /* a type that Serial ATA doesn't name */
    switch (fis) {
    case UNASKED_NOTIFICATION:
    case UNASKED_BITS:
        return ahci_hba_receive_bits(hba, fis == UNASKED_NOTIFICATION);
    case UNASKED_REGISTER:
        return ahci_hba_receive_register(hba);
    default:
        return ahci_hba_receive_unknown(hba, unknown, sizeof unknown);
    }
}

bool device_receive(struct device *device, enum unasked fis) {
    uint32_t status = receive(&device->hba, fis);
    if (status == AHCI_NOT_READY)
        return false;
    device_must("ahci_hba_receive", status);
    follow(device, 0);
    return true;
}
