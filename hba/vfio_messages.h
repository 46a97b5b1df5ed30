/* The messages of vfio-user, version 0.1, as QEMU's page "vfio-user Protocol Specification" has them, in this machine's own byte order; their numbers
   are those of <linux/vfio.h>. */
#ifndef AHCI_HBA_VFIO_MESSAGES_H
#define AHCI_HBA_VFIO_MESSAGES_H

#include <stdint.h>

enum vfio_command {
    VFIO_VERSION = 1,
    VFIO_DMA_MAP = 2,
    VFIO_DMA_UNMAP = 3,
    VFIO_GET_INFO = 4,
    VFIO_GET_REGION_INFO = 5,
    VFIO_GET_REGION_IO_FDS = 6,
    VFIO_GET_IRQ_INFO = 7,
    VFIO_SET_IRQS = 8,
    VFIO_REGION_READ = 9,
    VFIO_REGION_WRITE = 10,
    VFIO_DMA_READ = 11,
    VFIO_DMA_WRITE = 12,
    VFIO_DEVICE_RESET = 13,
    VFIO_REGION_WRITE_MULTI = 15,
    VFIO_DEVICE_FEATURE = 16
};

/* Bits of a header's flags. */
#define VFIO_TYPE 0xFu /* 0 a command, 1 a reply */
#define VFIO_REPLY 1u
#define VFIO_NO_REPLY 0x10u
#define VFIO_ERROR 0x20u

struct vfio_header {
    uint16_t id;
    uint16_t command;
    uint32_t bytes; /* of the whole message */
    uint32_t flags;
    uint32_t error; /* an errno, in a reply */
};

struct vfio_version {
    uint16_t major, minor;
};

#define VFIO_MAP_READABLE 1u
#define VFIO_MAP_WRITABLE 2u
#define VFIO_MAP_BY_FILE 0xCu /* bits 2 and 3: only with a file, by mmap or by reads and writes */

struct vfio_dma_map {
    uint32_t argsz, flags;
    uint64_t offset, address, size;
};

#define VFIO_UNMAP_ALL 2u /* with an address and a size of 0 */

struct vfio_dma_unmap {
    uint32_t argsz, flags;
    uint64_t address, size;
};

/* Of DMA_READ and DMA_WRITE; the bytes of a write, or of a read's reply, come behind. */
struct vfio_dma_access {
    uint64_t address, count;
};

#define VFIO_INFO_RESET 1u
#define VFIO_INFO_PCI 2u

struct vfio_device_info {
    uint32_t argsz, flags;
    uint32_t regions, irqs;
};

#define VFIO_REGION_READABLE 1u
#define VFIO_REGION_WRITABLE 2u

/* Regions of a PCI function. */
enum { VFIO_BAR5 = 5, VFIO_CONFIG = 7, VFIO_REGIONS = 9 };

struct vfio_region_info {
    uint32_t argsz, flags;
    uint32_t index, cap_offset;
    uint64_t size, offset;
};

/* Of GET_REGION_IO_FDS; `count` places of a region follow. */
struct vfio_io_files {
    uint32_t argsz, flags;
    uint32_t index, count;
};

#define VFIO_IRQ_EVENTFD 1u
#define VFIO_IRQ_MASKABLE 2u
#define VFIO_IRQ_AUTOMASKED 4u /* a trigger masks it */
#define VFIO_IRQ_NORESIZE 8u   /* all at once */

/* Kinds of interrupts of a PCI function; errors and requests come after MSI-X. */
enum { VFIO_INTX, VFIO_MSI, VFIO_MSIX, VFIO_IRQ_KINDS = 5 };

struct vfio_irq_info {
    uint32_t argsz, flags;
    uint32_t index, count;
};

#define VFIO_SET_NONE 0x01u
#define VFIO_SET_BOOL 0x02u
#define VFIO_SET_EVENTFD 0x04u
#define VFIO_SET_MASK 0x08u
#define VFIO_SET_UNMASK 0x10u
#define VFIO_SET_TRIGGER 0x20u

struct vfio_irq_set {
    uint32_t argsz, flags;
    uint32_t index, start, count;
};

/* Of REGION_READ and REGION_WRITE; the bytes come behind. */
struct vfio_access {
    uint64_t offset;
    uint32_t region, count;
};

/* One of REGION_WRITE_MULTI, whose number of them comes first, in 8 bytes. */
struct vfio_small_write {
    struct vfio_access access;
    uint64_t value;
};

#endif
