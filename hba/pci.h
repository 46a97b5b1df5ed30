/* The PCI function of the controller: its configuration space, its registers in BAR 5, and its interrupts (PCI Local Bus 3.0, chapter 6 and
   section 6.8; AHCI 1.3.1, chapter 2 and section 10.6.2). */
#ifndef AHCI_HBA_PCI_H
#define AHCI_HBA_PCI_H

#include "device.h"
#include "hold.h"

#include <stdbool.h>
#include <stdint.h>

#define PCI_CONFIG_BYTES 256
#define PCI_BAR_BYTES 0x1000u

/* How a transport brings an interrupt to the guest. */
struct wire {
    void *it;
    void (*message)(void *it, uint64_t address, uint32_t data); /* a message signalled interrupt */
    void (*line)(void *it, bool level);                         /* the level of INTA# */
};

struct pci {
    struct device *device;
    struct wire wire;
    uint8_t space[PCI_CONFIG_BYTES];
    uint8_t writable[PCI_CONFIG_BYTES]; /* the bits that the guest can write */
    bool level;    /* the controller's interrupt when it was looked at last */
    bool asserted; /* INTA# */
    struct hold hold; /* of messages */
    uint64_t silent;  /* the interrupt is not brought to the guest until then, in nanoseconds of CLOCK_MONOTONIC: by a script. UINT64_MAX: it is lost */
};

/* Makes the function of a device, after power-on. */
void pci_begin(struct pci *pci, struct device *device, struct wire wire);

/* A reset of the function: all that the guest wrote is gone, and the device is as after power-on. */
void pci_reset(struct pci *pci);

/* The function is taken out of the guest: it is as after power-on for the next one, and the disk keeps its sectors. */
void pci_unplug(struct pci *pci);

/* The guest's accesses to configuration space, in 1, 2 or 4 bytes; any other one reads ones, and writes nothing. */
uint32_t pci_config_read(const struct pci *pci, uint32_t at, uint32_t bytes);
void pci_config_write(struct pci *pci, uint32_t at, uint32_t bytes, uint32_t value);

/* Its accesses to the registers, in 1, 2, 4 or 8 bytes from the beginning of BAR 5; any other one reads ones, and writes nothing. */
uint64_t pci_register_read(struct pci *pci, uint32_t at, uint32_t bytes);
void pci_register_write(struct pci *pci, uint32_t at, uint32_t bytes, uint64_t value);

/* An interrupt that has no cause. */
void pci_interrupt(struct pci *pci);

/* Lets happen what a script says, takes the device's next step if it is due, and brings its interrupt to the guest, or what was held of it. A function that is no bus master takes no
   step. */
void pci_turn(struct pci *pci);

/* How many nanoseconds until the next turn: 0 if it is due, -1 if there is none. */
int64_t pci_waits(const struct pci *pci);

#endif
