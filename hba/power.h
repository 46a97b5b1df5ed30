/* The disk's power is lost, and comes again: what its sectors have then, and a new controller over them. */
#ifndef AHCI_HBA_POWER_H
#define AHCI_HBA_POWER_H

#include <stdint.h>

struct device;

/* Loses the power. What is kept of the writes that no flush has come after is drawn by a seed; the image has the sectors that are left, and the controller is as
   after power-on. The program ends if the image can't be written. */
void power_lose(struct device *device, uint64_t seed);

#endif
