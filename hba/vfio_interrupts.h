/* Interrupts by vfio-user: eventfds of the other side for INTx and for MSI, and INTx's mask. */
#ifndef AHCI_HBA_VFIO_INTERRUPTS_H
#define AHCI_HBA_VFIO_INTERRUPTS_H

#include "pci.h"
#include "socket.h"
#include "vfio_messages.h"

#include <stdbool.h>
#include <stddef.h>
#include <stdint.h>

struct vfio_interrupts {
    int triggers[VFIO_MSIX]; /* eventfds of INTx and MSI; -1 if there is none */
    int unmask;              /* an eventfd by which KVM says that the guest has handled INTx; -1 */
    bool level;              /* of INTx */
    bool is_masked;          /* INTx, from a trigger on until it is unmasked */
    bool is_due;             /* a message came before there was an eventfd for it: MSI is enabled in configuration space first */
};

void interrupts_begin(struct vfio_interrupts *interrupts);

/* How a PCI function brings its interrupts there. */
struct wire interrupts_wire(struct vfio_interrupts *interrupts);

/* What GET_IRQ_INFO and SET_IRQS ask. The answer is 0 or an errno. */
int interrupts_info(struct vfio_irq_info *info);
int interrupts_set(struct vfio_interrupts *interrupts, const struct vfio_irq_set *set, const uint8_t *data, size_t bytes, struct files *files);

/* The eventfd `unmask` is readable. */
void interrupts_unmask(struct vfio_interrupts *interrupts);

/* The function was reset: no message is due. */
void interrupts_reset(struct vfio_interrupts *interrupts);

void interrupts_end(struct vfio_interrupts *interrupts);

#endif
