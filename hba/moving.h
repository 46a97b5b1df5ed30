/* Moves the bytes that the controller reads or writes between the guest's memory and the library. */
#ifndef AHCI_HBA_MOVING_H
#define AHCI_HBA_MOVING_H

#include <stdbool.h>

struct device;

/* Moves until the controller reads and writes nothing. It returns false if there is no memory for now, or if a run waits for a message. */
bool move(struct device *device);

#endif
