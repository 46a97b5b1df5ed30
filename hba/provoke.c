#include "provoke.h"

#include "device.h"
#include "log.h"
#include "pci.h"
#include "power.h"

#include <inttypes.h>

#define MOST_AT_ONCE 16 /* events before the device's next step, so that a script with a short time doesn't stop it */

static void lose_memory(struct device *device, const struct event *event) {
    (void)event;
    device->provoked.no_memory = true;
}

static void spoil_memory(struct device *device, const struct event *event) {
    (void)event;
    device->provoked.memory_error = true;
}

static void lose_interrupt(struct device *device, const struct event *event) {
    (void)event;
    device->provoked.lost++;
}

static void delay_interrupt(struct device *device, const struct event *event) {
    device->provoked.late = event->time;
}

static void power_on(struct device *device, const struct event *event) {
    (void)event;
    device_reset(device);
}

static void lose_power(struct device *device, const struct event *event) {
    power_lose(device, event->seed);
}

static void lose_link(struct device *device, const struct event *event) {
    (void)event;
    device_lose_link(device);
}

static void find_link(struct device *device, const struct event *event) {
    (void)event;
    device_find_link(device);
}

static void unplug(struct device *device, const struct event *event) {
    (void)event;
    device_unplug(device);
}

static void plug(struct device *device, const struct event *event) {
    if (event->is_other)
        device_plug_other(device, device->provoked.file);
    else
        device_plug(device);
}

/* The signature that comes next, and FISes that no command asks for. */
static void change_signature(struct device *device, const struct event *event) {
    device->provoked.kind = event->kind == EVENT_PACKET_SIGNATURE   ? AHCI_DEVICE_PACKET
                            : event->kind == EVENT_BRIDGE_SIGNATURE ? AHCI_DEVICE_ENCLOSURE_BRIDGE
                                                                    : AHCI_DEVICE_PORT_MULTIPLIER;
}

static void send_unasked(struct device *device, const struct event *event) {
    const enum unasked fis = event->kind == EVENT_NOTIFICATION        ? UNASKED_NOTIFICATION
                             : event->kind == EVENT_SPURIOUS_BITS     ? UNASKED_BITS
                             : event->kind == EVENT_SPURIOUS_REGISTER ? UNASKED_REGISTER
                                                                      : UNASKED_UNKNOWN;
    device->provoked.fises |= 1u << fis;
}

static void hold_signature(struct device *device, const struct event *event) {
    device->provoked.held = event->time;
}

static void lose_signature(struct device *device, const struct event *event) {
    (void)event;
    device->provoked.lost_signatures++;
}

static void spoil_log(struct device *device, const struct event *event) {
    device->provoked.spoils_log = true;
    device->provoked.log = event->kind;
}

static void slow_bit(struct device *device, const struct event *event) {
    static const enum slow_bit bits[EVENT_KINDS] = {[EVENT_SLOW_CR] = SLOW_CR, [EVENT_SLOW_FR] = SLOW_FR, [EVENT_SLOW_CLO] = SLOW_CLO, [EVENT_SLOW_HR] = SLOW_HR};
    slow_arm(&device->slow, bits[event->kind], event->time);
}

/* The errors of the interface, each of which is an event of its own: how it is reported, and whether it stops the port. */
static const struct {
    ahci_interface_error error;
    bool is_fatal;
} interface_errors[EVENT_KINDS] = {
    [EVENT_DECODE_ERROR] = {AHCI_INTERFACE_DECODE, false},
    [EVENT_FATAL_DECODE_ERROR] = {AHCI_INTERFACE_DECODE, true},
    [EVENT_CRC_ERROR] = {AHCI_INTERFACE_CRC, false},
    [EVENT_FATAL_CRC_ERROR] = {AHCI_INTERFACE_CRC, true},
    [EVENT_HANDSHAKE_ERROR] = {AHCI_INTERFACE_HANDSHAKE, false},
    [EVENT_FATAL_HANDSHAKE_ERROR] = {AHCI_INTERFACE_HANDSHAKE, true},
    [EVENT_SEQUENCE_ERROR] = {AHCI_INTERFACE_LINK_SEQUENCE, false},
    [EVENT_FATAL_SEQUENCE_ERROR] = {AHCI_INTERFACE_LINK_SEQUENCE, true},
    [EVENT_TRANSPORT_ERROR] = {AHCI_INTERFACE_TRANSPORT_STATE, false},
    [EVENT_FATAL_TRANSPORT_ERROR] = {AHCI_INTERFACE_TRANSPORT_STATE, true},
};

static void fail_interface(struct device *device, const struct event *event) {
    device_fail_interface(device, interface_errors[event->kind].error, interface_errors[event->kind].is_fatal);
}

/* What the events do, to the device or to the PCI function. */
static void (*const on_device[EVENT_KINDS])(struct device *device, const struct event *event) = {
    [EVENT_NO_MEMORY] = lose_memory,
    [EVENT_MEMORY_ERROR] = spoil_memory,
    [EVENT_LOSE_INTERRUPT] = lose_interrupt,
    [EVENT_LATE_INTERRUPT] = delay_interrupt,
    [EVENT_POWER_ON] = power_on,
    [EVENT_POWER_LOSS] = lose_power,
    [EVENT_LOSE_LINK] = lose_link,
    [EVENT_FIND_LINK] = find_link,
    [EVENT_UNPLUG] = unplug,
    [EVENT_PLUG] = plug,
    [EVENT_PACKET_SIGNATURE] = change_signature,
    [EVENT_BRIDGE_SIGNATURE] = change_signature,
    [EVENT_MULTIPLIER_SIGNATURE] = change_signature,
    [EVENT_NOTIFICATION] = send_unasked,
    [EVENT_SPURIOUS_BITS] = send_unasked,
    [EVENT_SPURIOUS_REGISTER] = send_unasked,
    [EVENT_UNKNOWN_FIS] = send_unasked,
    [EVENT_DECODE_ERROR] = fail_interface,
    [EVENT_FATAL_DECODE_ERROR] = fail_interface,
    [EVENT_CRC_ERROR] = fail_interface,
    [EVENT_FATAL_CRC_ERROR] = fail_interface,
    [EVENT_HANDSHAKE_ERROR] = fail_interface,
    [EVENT_FATAL_HANDSHAKE_ERROR] = fail_interface,
    [EVENT_SEQUENCE_ERROR] = fail_interface,
    [EVENT_FATAL_SEQUENCE_ERROR] = fail_interface,
    [EVENT_TRANSPORT_ERROR] = fail_interface,
    [EVENT_FATAL_TRANSPORT_ERROR] = fail_interface,
    [EVENT_HOLD_SIGNATURE] = hold_signature,
    [EVENT_LOSE_SIGNATURE] = lose_signature,
    [EVENT_WRONG_LOG_TAG] = spoil_log,
    [EVENT_WRONG_LOG_NQ] = spoil_log,
    [EVENT_WRONG_LOG_SUM] = spoil_log,
    [EVENT_SLOW_CR] = slow_bit,
    [EVENT_SLOW_FR] = slow_bit,
    [EVENT_SLOW_CLO] = slow_bit,
    [EVENT_SLOW_HR] = slow_bit,
};
static void (*const on_function[EVENT_KINDS])(struct pci *pci) = {
    [EVENT_SEND_INTERRUPT] = pci_interrupt,
};

uint64_t provoke_since(const struct device *device) {
    return (device_now() - device->started) / 1000;
}

void provoke_answer(struct device *device, uint32_t slot) {
    for (enum event_kind kind = 0; kind < EVENT_KINDS; kind++) {
        struct decision *it = &device->tasks[slot].decided.of[kind];
        if (!it->line || event_rows[kind].scope != SCOPE_EITHER)
            continue;
        log_line("%s for the answer to %" PRIu32 ", by line %u", event_rows[kind].name, slot, it->line->row);
        recovery_event(&device->judge, &device->hba, kind, it->line->row, NO_SLOT);
        on_device[kind](device, it->event);
        it->line = NULL;
    }
}

/* Sends what waits for the port to accept it. */
static void send_fises(struct device *device) {
    for (enum unasked fis = 0; fis < UNASKED_KINDS; fis++)
        if (device->provoked.fises >> fis & 1 && device_receive(device, fis))
            device->provoked.fises &= ~(1u << fis);
}

void provoke_take(struct pci *pci) {
    struct script *script = pci->device->settings->script;
    struct decision due;
    send_fises(pci->device);
    if (script_next(script) == UINT64_MAX)
        return;
    const uint64_t since = provoke_since(pci->device);
    for (unsigned most = MOST_AT_ONCE; most && script_take(script, since, &due); most--) {
        const enum event_kind kind = due.event->kind;
        log_line("%s, by line %u", event_rows[kind].name, due.line->row);
        recovery_event(&pci->device->judge, &pci->device->hba, kind, due.line->row, NO_SLOT);
        pci->device->provoked.file = line_file(due.line, due.event);
        if (on_device[kind])
            on_device[kind](pci->device, due.event);
        else if (on_function[kind])
            on_function[kind](pci);
    }
    send_fises(pci->device);
}

int64_t provoke_waits(const struct device *device) {
    uint64_t next = script_next(device->settings->script);
    if (next == UINT64_MAX)
        return -1;
    uint64_t due = device->started + 1000 * next, now = device_now();
    return now >= due ? 0 : (int64_t)(due - now);
}

uint64_t provoke_interrupt(struct device *device) {
    struct provoked *it = &device->provoked;
    uint64_t late = it->late;
    if (it->lost) {
        it->lost--;
        log_line("an interrupt is lost");
        return UINT64_MAX;
    }
    it->late = 0;
    return late ? device_now() + 1000 * late : 0;
}

/* ---- the disk's signature ---- */

void provoke_signature(struct device *device) {
    struct provoked *it = &device->provoked;
    bool was_due = it->is_due;
    it->is_due = device->state.sign;
    if (!it->is_due || was_due)
        return;
    it->signs = 0;
    if (it->lost_signatures) {
        it->lost_signatures--;
        it->signs = UINT64_MAX;
        log_line("a signature is lost");
    } else if (it->held) {
        it->signs = device_now() + 1000 * it->held;
        it->held = 0;
        log_line("a signature is held");
    }
}

uint64_t provoke_signs(const struct device *device) {
    return device->state.sign && !device->mute ? device->provoked.signs : UINT64_MAX;
}

/* ---- log 10h (ACS-3, "NCQ Command Error log") ---- */

#define LOG_BYTES 512
#define LOG_NQ 0x80  /* of its first byte: no queued command has failed */
#define LOG_TAG 0x1F

/* Whether so many bytes are the log that a script changes. */
static bool is_spoilt(const struct device *device, size_t count) {
    return device->provoked.spoils_log && count == LOG_BYTES && device->tasks[device->answered].command.reads_error_log;
}

void provoke_written(struct device *device, size_t count) {
    device->provoked.spoils_log &= !is_spoilt(device, count);
}

void provoke_bytes(struct device *device, uint8_t *bytes, size_t count) {
    const struct provoked *it = &device->provoked;
    if (!is_spoilt(device, count))
        return;
    uint8_t before = bytes[0], *sum = &bytes[LOG_BYTES - 1];
    if (it->log == EVENT_WRONG_LOG_TAG)
        bytes[0] = (uint8_t)((before & ~LOG_TAG) | ((before + 1) & LOG_TAG));
    else if (it->log == EVENT_WRONG_LOG_NQ)
        bytes[0] |= LOG_NQ;
    *sum = (uint8_t)(*sum + before - bytes[0] + (it->log == EVENT_WRONG_LOG_SUM));
    log_line("log 10h is changed: it begins with %02x, not %02x, and its sum is %02x", bytes[0], before, *sum);
}
