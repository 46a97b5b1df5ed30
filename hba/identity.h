/* The options --model, --serial, --firmware and --rpm: what IDENTIFY DEVICE names the disk. */
#ifndef AHCI_HBA_IDENTITY_H
#define AHCI_HBA_IDENTITY_H

#include <ahci.h>

/* What the disk of a controller is named that nobody has named. */
ahci_identity identity_usual(void);

/* Takes the value of the option of a name. Returns 0, or -1 after it has printed what is wrong; 1 if the option is none of these. */
int identity_take(ahci_identity *identity, const char *name, const char *value);

#endif
