/* The main loop: the messages of a guest, and the device's turns between them. */
#ifndef AHCI_HBA_LOOP_H
#define AHCI_HBA_LOOP_H

#include "pci.h"
#include "transport.h"

#include <stdbool.h>

/* Lets signals end the loop, and the end of a child too. Before it, a child may come and go unnoticed. */
void loop_begin(void);

/* Serves the guest until it is gone, or its program has ended, or a signal came, or the device gives up. It returns 0, or -1 once it has printed what went
   wrong. */
int loop_run(struct pci *pci, struct transport transport);

/* Serves the guest until its program, which was asked to end, has done so, for so many seconds at most. */
void loop_finish(struct pci *pci, struct transport transport, unsigned seconds);

/* Whether a signal has asked this program to end. */
bool loop_is_stopped(void);

#endif
