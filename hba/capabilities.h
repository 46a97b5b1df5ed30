/* The option --cap: what the controller can do, as its CAP shows it. */
#ifndef AHCI_HBA_CAPABILITIES_H
#define AHCI_HBA_CAPABILITIES_H

#include <ahci.h>

/* Takes the fields that a value of --cap names, FIELD=NUMBER,FIELD=NUMBER.., and leaves the others. Returns 0, or -1 after it has printed what
   is wrong. */
int capabilities_take(ahci_hba_capabilities *capabilities, const char *value);

#endif
