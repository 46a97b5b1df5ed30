/* QEMU's side: the messages of its device x-pci-proxy-dev ("multi-process QEMU"), and interrupts. */
#ifndef AHCI_HBA_PROXY_H
#define AHCI_HBA_PROXY_H

#include "memory.h"
#include "pci.h"
#include "transport.h"

struct proxy {
    int socket;  /* of x-pci-proxy-dev */
    int qtest;   /* of QEMU's qtest server, by which messages of interrupts go; -1 if there is none */
    int trigger; /* an eventfd that asserts the line, from QEMU under KVM; -1 until it comes */
    int resample; /* an eventfd that says that the guest has handled it */
    bool level;
    struct pci *pci;
    struct memory *memory;
};

/* Makes the proxy of a function. Both sockets are the proxy's from then on. */
void proxy_begin(struct proxy *proxy, int socket, int qtest, struct pci *pci, struct memory *memory);

struct transport proxy_transport(struct proxy *proxy);
struct wire proxy_wire(struct proxy *proxy);

void proxy_end(struct proxy *proxy);

#endif
