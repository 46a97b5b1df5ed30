/* A guest's program that has the controller by vfio-user, as QEMU 10.1 and later do by the device vfio-user-pci. It comes to a socket, may go, and another
   one may come: the disk stays as it is, and the function is then as after power-on. */
#ifndef AHCI_HBA_VFIO_USER_H
#define AHCI_HBA_VFIO_USER_H

#include "memory.h"
#include "pci.h"
#include "place.h"
#include "transport.h"
#include "vfio_interrupts.h"
#include "vfio_link.h"
#include "vfio_memory.h"

#include <stdbool.h>

struct vfio_user {
    struct place place;
    bool trusts_client; /* a broken message ends the service, and not just the connection */
    bool has_agreed;    /* on a version */
    struct pci *pci;
    struct vfio_interrupts interrupts;
    struct vfio_memory memory;
    struct vfio_link link;
};

/* Makes the socket, at a path or in a folder of its own if that is NULL. It returns 0, or -1 once it has printed why. */
int vfio_user_begin(struct vfio_user *it, const char *path, bool trusts_client, struct pci *pci, struct memory *memory);

struct transport vfio_user_transport(struct vfio_user *it);
struct wire vfio_user_wire(struct vfio_user *it);

void vfio_user_end(struct vfio_user *it);

#endif
