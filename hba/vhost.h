/* User Mode Linux's side: its PCI bus over virtio, whose device is served by vhost-user. The kernel wants CONFIG_UML_PCI_OVER_VIRTIO. */
#ifndef AHCI_HBA_VHOST_H
#define AHCI_HBA_VHOST_H

#include "memory.h"
#include "pci.h"
#include "place.h"
#include "ring.h"
#include "transport.h"

#define VHOST_RINGS 2

struct vhost {
    struct place place;
    int socket; /* -1 until the kernel has come */
    int back;   /* by which a device may ask the kernel; it takes the device away once this is closed */
    struct ring rings[VHOST_RINGS]; /* the kernel's accesses, and the device's interrupts */
    unsigned unsignalled; /* accesses that were answered since the kernel was signalled */
    struct pci *pci;
    struct memory *memory;
};

/* Makes a socket for the kernel. It returns 0, or -1 once it has printed why. */
int vhost_begin(struct vhost *vhost, struct pci *pci, struct memory *memory);

/* The socket's path, for the kernel's command line. */
const char *vhost_path(const struct vhost *vhost);

struct transport vhost_transport(struct vhost *vhost);
struct wire vhost_wire(struct vhost *vhost);

void vhost_end(struct vhost *vhost);

#endif
