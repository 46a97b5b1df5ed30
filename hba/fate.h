/* What becomes of commands by a script of events, and by the options --fail, --slow, --stall, --refuse-log and --sync, instead of the step that comes
   next. */
#ifndef AHCI_HBA_FATE_H
#define AHCI_HBA_FATE_H

#include <stdbool.h>
#include <stdint.h>

struct device;

/* Asks the script about each command whose moment has come, once: a queued one when the device has taken it, any other before it goes on. */
void fate_decide(struct device *device);

/* Fails the command of a slot if some option says so, instead of its next step, or lets a flush wait for the image. Without memory for that the device
   waits, and it is tried again. */
bool fate_fails(struct device *device, uint32_t slot);

#endif
