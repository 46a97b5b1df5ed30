/* What a script's events do to the controller: those that are about no command, and those about a command's answer. A new event has a row in
   ../host/event_table.c, and a function here. */
#ifndef AHCI_HBA_PROVOKE_H
#define AHCI_HBA_PROVOKE_H

#include "event_table.h"

#include <ahci.h>
#include <stdbool.h>
#include <stddef.h>
#include <stdint.h>

struct device;
struct pci;

/* FISes that no command asks for. */
enum unasked { UNASKED_NOTIFICATION, UNASKED_BITS, UNASKED_REGISTER, UNASKED_UNKNOWN, UNASKED_KINDS };

/* What is to become of what comes next. */
struct provoked {
    bool no_memory; /* the next access to the guest's memory finds none */
    bool memory_error; /* it meets wrong data */
    ahci_device_kind kind; /* whose signature comes next */
    uint32_t fises; /* FISes that no command asks for and that are still to be sent, as bits of enum unasked */
    uint32_t lost;  /* so many interrupts are lost */
    uint64_t late;  /* the next one is late by so many microseconds; 0: it is not */
    bool is_due;    /* a signature of the disk is due, and it was decided what becomes of it */
    uint64_t signs; /* it comes then, in nanoseconds of CLOCK_MONOTONIC; UINT64_MAX: it never does; 0: at once */
    uint64_t held;  /* the next one is late by so many microseconds; 0: it is not */
    uint32_t lost_signatures; /* so many signatures don't come */
    bool spoils_log;          /* the next log 10h that is read is wrong */
    enum event_kind log;      /* in this way */
    const char *file;         /* that the event at hand names, or NULL */
};

/* Microseconds since the start. */
uint64_t provoke_since(const struct device *device);

/* The answer to the command of a slot is written next: what was decided for it is due. */
void provoke_answer(struct device *device, uint32_t slot);

/* Lets happen what is due. */
void provoke_take(struct pci *pci);

/* How many nanoseconds until something is due; -1 if nothing is. */
int64_t provoke_waits(const struct device *device);

/* The device has looked at what is next: what a script says of a signature that has become due is decided. */
void provoke_signature(struct device *device);

/* When the disk's signature comes, in nanoseconds of CLOCK_MONOTONIC: 0 at once, UINT64_MAX if it doesn't. */
uint64_t provoke_signs(const struct device *device);

/* Changes bytes of an answer before they are written to the guest's memory, if a script says so; until provoke_written, since they may be copied again. */
void provoke_bytes(struct device *device, uint8_t *bytes, size_t count);
void provoke_written(struct device *device, size_t count);

/* An interrupt is asserted: until when it is not brought to the guest, in nanoseconds of CLOCK_MONOTONIC; 0 if it is at once, UINT64_MAX if it is lost. */
uint64_t provoke_interrupt(struct device *device);

#endif
