#include "pci.h"

#include "log.h"
#include "names.h"

#include <inttypes.h>
#include <stdio.h>
#include <string.h>

/* Places in configuration space, and bits there (PCI Local Bus 3.0, sections 6.1, 6.2 and 6.8.1). */
enum {
    VENDOR = 0x00,
    DEVICE = 0x02,
    COMMAND = 0x04, /* bits 1 memory space, 2 bus master, 10 interrupt disable */
    STATUS = 0x06,  /* bits 3 interrupt status, 4 capabilities list */
    REVISION = 0x08,
    CLASS = 0x09,
    CACHE_LINE = 0x0C,
    BAR5 = 0x24,
    SUBSYSTEM_VENDOR = 0x2C,
    SUBSYSTEM = 0x2E,
    CAPABILITIES = 0x34,
    INTERRUPT_LINE = 0x3C,
    INTERRUPT_PIN = 0x3D,
    MSI = 0x40,
    MSI_CONTROL = MSI + 2, /* bits 0 enable, 7 address of 64 bits */
    MSI_ADDRESS = MSI + 4,
    MSI_DATA = MSI + 12
};

#define COMMAND_MASTER 0x0004
#define COMMAND_NO_LINE 0x0400
#define STATUS_INTERRUPT 0x0008

static uint32_t get(const uint8_t *from, unsigned bytes) {
    uint32_t value = 0;
    for (unsigned i = 0; i < bytes; i++)
        value |= (uint32_t)from[i] << 8 * i;
    return value;
}

static void put(uint8_t *to, unsigned bytes, uint32_t value) {
    for (unsigned i = 0; i < bytes; i++)
        to[i] = (uint8_t)(value >> 8 * i);
}

/* What is read of a function that nobody has written to. */
static void fill_space(uint8_t *space) {
    memset(space, 0, PCI_CONFIG_BYTES);
    put(space + VENDOR, 2, 0x1234); /* nobody's, as of QEMU's own devices without a vendor */
    put(space + DEVICE, 2, 0xA4C1);
    put(space + STATUS, 2, 0x0010);
    put(space + REVISION, 1, 1);
    put(space + CLASS, 3, 0x010601); /* a serial ATA controller with AHCI */
    put(space + SUBSYSTEM_VENDOR, 2, 0x1234);
    put(space + SUBSYSTEM, 2, 0xA4C1);
    put(space + CAPABILITIES, 1, MSI);
    put(space + INTERRUPT_PIN, 1, 1);
    put(space + MSI, 2, 0x0005); /* the capability's number, and no other after it */
    put(space + MSI_CONTROL, 2, 0x0080);
}

static void fill_writable(uint8_t *writable) {
    memset(writable, 0, PCI_CONFIG_BYTES);
    put(writable + COMMAND, 2, 0x0406);
    put(writable + CACHE_LINE, 1, 0xFF);
    put(writable + BAR5, 4, ~(PCI_BAR_BYTES - 1));
    put(writable + INTERRUPT_LINE, 1, 0xFF);
    put(writable + MSI_CONTROL, 2, 0x0071); /* enable, and how many messages there may be: it sends one */
    put(writable + MSI_ADDRESS, 4, ~UINT32_C(3));
    put(writable + MSI_ADDRESS + 4, 4, ~UINT32_C(0));
    put(writable + MSI_DATA, 2, 0xFFFF);
}

void pci_begin(struct pci *pci, struct device *device, struct wire wire) {
    *pci = (struct pci){.device = device, .wire = wire, .hold.settings = device->settings->hold};
    fill_space(pci->space);
    fill_writable(pci->writable);
}

/* ---- interrupts ---- */

static bool has_messages(const struct pci *pci) {
    return get(pci->space + MSI_CONTROL, 2) & 1;
}

static bool is_master(const struct pci *pci) {
    return get(pci->space + COMMAND, 2) & COMMAND_MASTER;
}

static void set_line(struct pci *pci, bool level) {
    if (pci->asserted == level)
        return;
    pci->asserted = level;
    log_line("interrupt line %d", level);
    pci->wire.line(pci->wire.it, level);
}

static void send_message(struct pci *pci) {
    uint64_t address = get(pci->space + MSI_ADDRESS, 4) | (uint64_t)get(pci->space + MSI_ADDRESS + 4, 4) << 32;
    uint32_t data = get(pci->space + MSI_DATA, 2);
    log_line("interrupt message %" PRIx64 " %04" PRIx32, address, data);
    pci->wire.message(pci->wire.it, address, data);
}

static bool sends_messages(const struct pci *pci) {
    return has_messages(pci) && is_master(pci);
}

/* Whether the line is to be asserted. */
static bool drives_line(const struct pci *pci) {
    return pci->level && !pci->silent && !has_messages(pci) && !(get(pci->space + COMMAND, 2) & COMMAND_NO_LINE);
}

/* Brings the controller's interrupt to the guest: as a message if it comes, or as the level of the line. */
static void settle(struct pci *pci) {
    bool before = pci->level;
    pci->level = pci->device->state.interrupt;
    if (!before || !pci->level)
        pci->silent = pci->level ? provoke_interrupt(pci->device) : 0;
    set_line(pci, drives_line(pci));
    if (pci->level && !before && !pci->silent && sends_messages(pci) && hold_takes(&pci->hold, device_now()))
        send_message(pci);
}

/* Brings an interrupt that is late. */
static void end_silence(struct pci *pci) {
    if (!pci->silent || pci->silent > device_now())
        return;
    pci->silent = 0;
    set_line(pci, drives_line(pci));
    if (sends_messages(pci))
        send_message(pci);
}

void pci_interrupt(struct pci *pci) {
    if (sends_messages(pci)) {
        send_message(pci);
        return;
    }
    set_line(pci, !has_messages(pci));
    set_line(pci, drives_line(pci));
}

/* Sends the message that is held, unless the driver has cleared its cause meanwhile. */
static void release(struct pci *pci) {
    if (!pci->hold.is_owed)
        return;
    hold_end(&pci->hold);
    if (pci->level && !pci->silent && sends_messages(pci))
        send_message(pci);
}

static int64_t step_waits(const struct pci *pci) {
    return is_master(pci) ? device_waits(pci->device) : -1;
}

static int64_t hold_left(const struct pci *pci, int64_t step) {
    return pci->hold.is_owed ? hold_waits(&pci->hold, step < 0, device_now()) : -1;
}

/* ---- configuration space ---- */

static void power_on(struct pci *pci) {
    pci->hold.is_owed = false;
    fill_space(pci->space);
    device_reset(pci->device);
    device_master(pci->device, false);
    settle(pci);
}

void pci_reset(struct pci *pci) {
    log_line("reset of the PCI function");
    power_on(pci);
}

void pci_unplug(struct pci *pci) {
    log_line("the PCI function is unplugged");
    power_on(pci);
    device_save(pci->device);
}

static bool is_place(uint32_t at, uint32_t bytes) {
    return (bytes == 1 || bytes == 2 || bytes == 4) && at < PCI_CONFIG_BYTES && bytes <= PCI_CONFIG_BYTES - at;
}

uint32_t pci_config_read(const struct pci *pci, uint32_t at, uint32_t bytes) {
    uint8_t space[PCI_CONFIG_BYTES];
    memcpy(space, pci->space, sizeof space);
    if (pci->level)
        space[STATUS] |= STATUS_INTERRUPT;
    uint32_t value = is_place(at, bytes) ? get(space + at, bytes) : UINT32_MAX;
    log_line("config read %02" PRIx32 "/%" PRIu32 " %0*" PRIx32, at, bytes, (int)(2 * (bytes < 4 ? bytes : 4)), value);
    return value;
}

void pci_config_write(struct pci *pci, uint32_t at, uint32_t bytes, uint32_t value) {
    log_line("config write %02" PRIx32 "/%" PRIu32 " %0*" PRIx32, at, bytes, (int)(2 * (bytes < 4 ? bytes : 4)), value);
    bool was_master = is_master(pci);
    if (!is_place(at, bytes))
        return;
    release(pci); /* by the address and data that it was due for */
    for (uint32_t i = 0; i < bytes; i++) {
        uint8_t mask = pci->writable[at + i];
        pci->space[at + i] = (uint8_t)((pci->space[at + i] & ~mask) | (value >> 8 * i & mask));
    }
    if (is_master(pci) != was_master)
        device_master(pci->device, !was_master);
    settle(pci);
}

/* ---- registers ---- */

/* The name of a register, or its offset. */
static const char *name_of(uint32_t at, char text[8]) {
    const char *name = register_name(at);
    if (name)
        return name;
    snprintf(text, 8, "%03" PRIx32, at % 0x10000);
    return text;
}

static void log_access(const char *what, uint32_t at, uint32_t bytes, uint64_t value) {
    char text[8];
    if (!log_is_open())
        return;
    if (bytes == 4)
        log_line("%s %s %08" PRIx64, what, name_of(at, text), value);
    else
        log_line("%s %s/%" PRIu32 " %0*" PRIx64, what, name_of(at, text), bytes, (int)(2 * (bytes < 8 ? bytes : 8)), value);
}

/* Whether a read or a write of so many bytes is one of the bus. */
static bool is_size(uint32_t bytes) {
    return bytes == 1 || bytes == 2 || bytes == 4 || bytes == 8;
}

uint64_t pci_register_read(struct pci *pci, uint32_t at, uint32_t bytes) {
    if (!is_size(bytes)) {
        log_line("a read of %" PRIu32 " bytes is none of the bus", bytes);
        return UINT64_MAX;
    }
    uint64_t value = device_read(pci->device, at, bytes);
    log_access("read", at, bytes, value);
    return value;
}

/* Whether a write clears the port's bit of IS. If its interrupt is asserted again after that, another message is sent. */
static bool clears_is(uint32_t at, uint32_t bytes, uint64_t value) {
    return at <= AHCI_REG_IS && AHCI_REG_IS - at < bytes && value >> 8 * (AHCI_REG_IS - at) & 1;
}

/* Whether a write issues commands. */
static bool issues(uint32_t at, uint32_t bytes) {
    return at <= AHCI_REG_PXCI && AHCI_REG_PXCI - at < bytes;
}

void pci_register_write(struct pci *pci, uint32_t at, uint32_t bytes, uint64_t value) {
    if (!is_size(bytes)) {
        log_line("a write of %" PRIu32 " bytes is none of the bus", bytes);
        return;
    }
    log_access("write", at, bytes, value);
    if (pci->hold.is_owed && issues(at, bytes))
        hold_issued(&pci->hold, device_now());
    device_write(pci->device, at, bytes, value);
    provoke_take(pci);
    if (clears_is(at, bytes, value))
        pci->level = false;
    settle(pci);
}

/* ---- the device's turn ---- */

void pci_turn(struct pci *pci) {
    provoke_take(pci);
    if (is_master(pci))
        device_turn(pci->device);
    settle(pci);
    end_silence(pci);
    if (pci->hold.is_owed && hold_left(pci, step_waits(pci)) == 0)
        release(pci);
}

/* The shorter of two waits, of which -1 is none. */
static int64_t shorter(int64_t one, int64_t other) {
    if (one < 0 || other < 0)
        return one < 0 ? other : one;
    return one < other ? one : other;
}

static int64_t silence_left(const struct pci *pci) {
    if (!pci->silent || pci->silent == UINT64_MAX)
        return -1;
    uint64_t now = device_now();
    return now >= pci->silent ? 0 : (int64_t)(pci->silent - now);
}

int64_t pci_waits(const struct pci *pci) {
    int64_t step = step_waits(pci);
    return shorter(shorter(step, hold_left(pci, step)), shorter(silence_left(pci), provoke_waits(pci->device)));
}
