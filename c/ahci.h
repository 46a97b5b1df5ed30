/* One AHCI port with its NCQ disk, as C calls of the static library libahci.a or the shared one libahci.so.0: `make -C c` builds both.

   Every call returns a status: AHCI_OK, or the one reason for which it was refused (ahci_status). A refused call has changed
   nothing, neither the port nor what its pointers lead to; ahci_port_write_register describes the one exception.
   AHCI_OUT_OF_MEMORY means that an allocation failed, and nothing else.

   What the caller owes, since nothing checks it: each pointer is valid for the bytes given, aligned for its type, and not null,
   even for 0 bytes; no two pointers of one call overlap; an ahci_port is never copied, and the caller never reads or writes its
   fields; one call at a time for one port. Calls for different ports may run at once on different threads, and a port may move
   to another thread if something orders the calls. docs/C.md has all of it.

   "Section" is one of AHCI 1.3.1, "SATA" Serial ATA, and ACS-3 the ATA command set. A sector has 512 bytes. */
#ifndef AHCI_H
#define AHCI_H

#include <stdbool.h>
#include <stddef.h>
#include <stdint.h>

#ifdef __cplusplus
extern "C" {
#endif

/* The version of this header: major, minor and patch, a byte each. ahci_version returns that of the library. */
#define AHCI_VERSION 0x010100u

#define AHCI_SECTOR_BYTES 512
#define AHCI_MOST_SECTORS 131072   /* of one port's disk: 64 MiB */
#define AHCI_MOST_TAGS 32
#define AHCI_MOST_COUNT 65536      /* sectors of one command */
#define AHCI_HEADER_BYTES 32       /* a command header (section 4.2.2) */
#define AHCI_LIST_BYTES 1024       /* a command list of 32 headers (section 4.2.2) */
#define AHCI_RECEIVED_BYTES 256    /* the received FIS area (section 4.2.1) */
#define AHCI_MOST_FIS_BYTES 8196   /* a Data FIS with 8,192 bytes of payload */
#define AHCI_PAGE_BYTES 512        /* the page of IDENTIFY DEVICE, and page 0 of log 10h */

/* ---- names of registers, bits and places ---- */

/* Offsets from the HBA's base (sections 3.1 and 3.3), in bytes. The one port's registers begin at 100h. */
#define AHCI_REG_CAP 0x000u
#define AHCI_REG_GHC 0x004u
#define AHCI_REG_IS 0x008u
#define AHCI_REG_PI 0x00Cu
#define AHCI_REG_VS 0x010u
#define AHCI_REG_CAP2 0x024u
#define AHCI_REG_BOHC 0x028u
#define AHCI_REG_PXCLB 0x100u
#define AHCI_REG_PXCLBU 0x104u
#define AHCI_REG_PXFB 0x108u
#define AHCI_REG_PXFBU 0x10Cu
#define AHCI_REG_PXIS 0x110u
#define AHCI_REG_PXIE 0x114u
#define AHCI_REG_PXCMD 0x118u
#define AHCI_REG_PXTFD 0x120u
#define AHCI_REG_PXSIG 0x124u
#define AHCI_REG_PXSSTS 0x128u
#define AHCI_REG_PXSCTL 0x12Cu
#define AHCI_REG_PXSERR 0x130u
#define AHCI_REG_PXSACT 0x134u
#define AHCI_REG_PXCI 0x138u
#define AHCI_REG_PXSNTF 0x13Cu

#define AHCI_CAP_SNCQ (1u << 30) /* section 3.1.1 */
#define AHCI_CAP_S64A (1u << 31)
#define AHCI_GHC_HR (1u << 0)    /* section 3.1.2 */
#define AHCI_GHC_IE (1u << 1)
#define AHCI_GHC_AE (1u << 31)
#define AHCI_PXIS_DHRS (1u << 0) /* sections 3.3.5 and 3.3.6 */
#define AHCI_PXIS_PSS (1u << 1)
#define AHCI_PXIS_DSS (1u << 2)
#define AHCI_PXIS_SDBS (1u << 3)
#define AHCI_PXIS_DPS (1u << 5)
#define AHCI_PXIS_PCS (1u << 6)
#define AHCI_PXIS_PRCS (1u << 22)
#define AHCI_PXIS_OFS (1u << 24)
#define AHCI_PXIS_IFS (1u << 27)
#define AHCI_PXIS_HBDS (1u << 28)
#define AHCI_PXIS_HBFS (1u << 29)
#define AHCI_PXIS_TFES (1u << 30)
#define AHCI_PXCMD_ST (1u << 0) /* section 3.3.7 */
#define AHCI_PXCMD_SUD (1u << 1)
#define AHCI_PXCMD_POD (1u << 2)
#define AHCI_PXCMD_CLO (1u << 3)
#define AHCI_PXCMD_FRE (1u << 4)
#define AHCI_PXCMD_FR (1u << 14)
#define AHCI_PXCMD_CR (1u << 15)
#define AHCI_PXTFD_ERR (1u << 0) /* section 3.3.8 */
#define AHCI_PXTFD_DRQ (1u << 3)
#define AHCI_PXTFD_DRDY (1u << 6)
#define AHCI_PXTFD_BSY (1u << 7)
#define AHCI_SIGNATURE_DISK 0x00000101u /* PxSIG of an ATA device (section 3.3.9) */

/* Places in the received FIS area (section 4.2.1) and in a command table (section 4.2.3). */
#define AHCI_PLACE_DMA_SETUP 0x00u
#define AHCI_PLACE_PIO_SETUP 0x20u
#define AHCI_PLACE_D2H 0x40u
#define AHCI_PLACE_SET_BITS 0x58u
#define AHCI_PLACE_CFIS 0x00u
#define AHCI_PLACE_ACMD 0x40u
#define AHCI_PLACE_PRDT 0x80u
#define AHCI_PRD_BYTES 16 /* an entry of the PRDT */

/* Codes of commands (ACS-3), and bits of the error field. */
#define AHCI_READ_FPDMA_QUEUED 0x60u
#define AHCI_WRITE_FPDMA_QUEUED 0x61u
#define AHCI_IDENTIFY_DEVICE 0xECu
#define AHCI_FLUSH_CACHE_EXT 0xEAu
#define AHCI_READ_LOG_EXT 0x2Fu
#define AHCI_ERROR_ABRT 0x04u
#define AHCI_ERROR_IDNF 0x10u
#define AHCI_ERROR_UNC 0x40u

/* The place of a port, in the caller's memory. All zeros is an empty place. */
typedef struct ahci_port {
    void *at;
    bool full;
    bool stopped;
    uint32_t announced;
} ahci_port;
#define AHCI_PORT_EMPTY { NULL, false, false, 0 }

/* What a call returns. Each has one meaning. */
typedef enum ahci_status {
    AHCI_OK = 0,
    /* places, arguments and memory */
    AHCI_NO_PORT = 1,           /* the place is empty */
    AHCI_PORT_THERE = 2,        /* the place has a port already */
    AHCI_OUT_OF_MEMORY = 3,     /* an allocation failed */
    AHCI_BUFFER_TOO_SMALL = 4,  /* the result has more bytes than the buffer */
    AHCI_WRONG_LENGTH = 5,      /* a buffer that has a fixed length has another */
    AHCI_BAD_TAG = 6,           /* the tag is not 0 to 31 */
    AHCI_BAD_KIND = 7,          /* the call does not know this kind */
    AHCI_NO_SUCH_SECTOR = 8,    /* the LBA is past the last sector */
    AHCI_NO_SUCH_ENTRY = 9,     /* the journal has no entry of this number, or it has no bytes */
    AHCI_TOO_MANY_TAGS = 10,    /* a list of over 32 tags */
    /* making a port */
    AHCI_BAD_SIZE = 11,         /* the disk is not 1 to 131,072 whole sectors */
    AHCI_BAD_DEPTH = 12,        /* the depth is not 1 to 32 */
    AHCI_BAD_FIRST = 13,        /* the number of the first entry is over 2^63 */
    /* registers */
    AHCI_UNALIGNED = 16,        /* the offset isn't a multiple of 4 */
    AHCI_NO_SUCH_REGISTER = 17, /* this model has no register at the offset */
    AHCI_NOT_STARTED = 18,      /* a write of PxSACT or PxCI while ST is 0: no call returns it, since a port here is started */
    AHCI_NOT_RECEIVING = 19,    /* a write that sets ST while FRE is 0: no call returns it, since FRE is 1 here */
    AHCI_RUNNING = 20,          /* a write that clears FRE, or moves PxCLB or PxFB */
    AHCI_NOT_QUEUED = 21,       /* a write that sets a bit of PxCI whose bit of PxSACT was not written before */
    /* the port */
    AHCI_HALTED = 32,           /* a command has failed, and the port has not recovered */
    AHCI_NO_SUCH_TAG = 33,      /* the tag is not below the depth */
    AHCI_SLOT_OWNED = 34,       /* the slot has a request */
    AHCI_BAD_HEADER = 35,       /* the port does not take this command header, or its table isn't in the window */
    AHCI_BAD_COMMAND = 36,      /* CFIS is not a READ or WRITE FPDMA QUEUED in the header's direction */
    AHCI_WRONG_TAG = 37,        /* the command's tag is not the window's */
    AHCI_BAD_LIST = 38,         /* the port does not take this PRDT */
    AHCI_BAD_COUNT = 39,        /* not 1 to 65,536 sectors, or a write with another number of bytes */
    AHCI_BAD_LBA = 40,          /* the LBA doesn't fit 48 bits */
    AHCI_NOT_ISSUED = 41,       /* the tag's command is not waiting for the device */
    AHCI_NOT_ACCEPTED = 42,     /* the command of the tag, or of a tag of the list, is not accepted */
    AHCI_OUTSIDE_COMMAND = 43,  /* the sector is not one of the command's */
    AHCI_BAD_TAGS = 44,         /* an empty list or set, or a list with a tag twice */
    AHCI_NOT_HALTED = 45,       /* no command has failed */
    AHCI_NOT_HELD = 46,         /* the tag's command is not held */
    AHCI_QUEUE_BUSY = 47,       /* a queued command is issued or accepted */
    AHCI_STRANGER = 48,         /* the slot is free, or its request has another number */
    AHCI_NOT_YET = 49,          /* the request has no answer yet */
    AHCI_BUSY = 50,             /* some slot is not free */
    AHCI_SPENT = 51,            /* the number of the next entry is over 2^63 */
    AHCI_NOT_READY = 52,        /* the controller can't take this step now */
    /* FISes */
    AHCI_EMPTY_FIS = 64,        /* there are no bytes */
    AHCI_UNKNOWN_TYPE = 65,     /* the type is none of the seven */
    AHCI_WRONG_FIS_LENGTH = 66, /* the type doesn't have so many bytes */
    AHCI_BAD_FLAG = 67,         /* a flag that is neither 0 nor 1 */
    AHCI_BAD_STATUS = 68,       /* bit 7 or 3 of a Set Device Bits FIS's status is 1 */
    AHCI_BAD_PAYLOAD = 69,      /* the payload of a Data FIS is not 4 to 8,192 bytes, a multiple of 4 */
    /* journals */
    AHCI_NOT_ALLOWED = 80       /* an event that can't come at this place */
} ahci_status;

/* In which order the device goes on with the tags of a set. */
typedef enum ahci_order {
    AHCI_ORDER_LOWEST = 0,  /* the lowest tag first */
    AHCI_ORDER_HIGHEST = 1, /* the highest tag first */
    AHCI_ORDER_DRAWN = 2,   /* the tag that a draw falls on: the lowest is number 0, and the draw counts modulo how many there are */
    AHCI_ORDER_ROUND = 3    /* the first tag from a draw's place on, the draw modulo 32, going round past 31 to 0 */
} ahci_order;

/* What a command does. With FUA (ACS-3, READ and WRITE FPDMA QUEUED) the device of its command FIS has bit 7. */
typedef enum ahci_kind {
    AHCI_READ = 0,
    AHCI_WRITE = 1,
    AHCI_READ_FUA = 2,
    AHCI_WRITE_FUA = 3
} ahci_kind;

/* How far a tag's command is. */
typedef enum ahci_phase {
    AHCI_PHASE_FREE = 0,        /* the slot has no request */
    AHCI_PHASE_ISSUED = 1,      /* the command waits for the device */
    AHCI_PHASE_ACCEPTED = 2,    /* the device has taken it */
    AHCI_PHASE_REJECTED = 3,    /* the device refused it, and the port has not recovered */
    AHCI_PHASE_BROKEN = 4,      /* it failed after it was accepted, and the port has not recovered */
    AHCI_PHASE_HELD = 5,        /* another's error ended it: it can be issued again */
    AHCI_PHASE_DONE = 6         /* the request has its answer */
} ahci_phase;

/* What the device did in a step. */
typedef enum ahci_did {
    AHCI_ACCEPTED = 0,
    AHCI_COMPLETED = 1,
    AHCI_FAILED = 2
} ahci_did;

typedef struct ahci_stepped {
    uint64_t first; /* the number of the step's first entry */
    uint32_t count; /* how many entries it has: one, or one for each tag of a list */
    uint32_t did;   /* ahci_did */
} ahci_stepped;

/* How a request ended. */
typedef enum ahci_outcome {
    AHCI_DID_READ = 0,
    AHCI_DID_WRITE = 1,
    AHCI_DID_FAIL = 2
} ahci_outcome;

typedef struct ahci_reply {
    uint64_t number;  /* the request's, that of its Issue entry */
    uint64_t entry;   /* the number of the entry that answered it */
    uint64_t lba;     /* of a failure: the failing sector; else 0 */
    uint64_t bytes;   /* of a read: how many bytes it has read; else 0 */
    uint32_t outcome; /* ahci_outcome */
    uint32_t error;   /* of a failure: the error byte; else 0 */
} ahci_reply;

/* One slot of a port. */
typedef struct ahci_slot {
    uint64_t number; /* that of the request that owns it; 0 if it is free */
    uint64_t bytes;  /* how many bytes its request reads, for which collect needs room; 0 for a write or a free slot */
    uint32_t phase;  /* ahci_phase */
    uint32_t owned;  /* 1 if a request owns it, else 0 */
} ahci_slot;

/* Tags by what they wait for, each set as the bits of a word. */
typedef struct ahci_tag_sets {
    uint32_t issued;   /* their command is waiting for the device */
    uint32_t accepted; /* the device has taken their command, and it has not failed */
    uint32_t held;     /* another command's error has ended theirs */
} ahci_tag_sets;

/* What an entry of the journal records. */
typedef enum ahci_event {
    AHCI_EVENT_READ = 0,     /* a read is issued: tag, lba, sectors */
    AHCI_EVENT_WRITE = 1,    /* a write is issued: tag, lba, sectors */
    AHCI_EVENT_ACCEPT = 2,   /* tag */
    AHCI_EVENT_COMPLETE = 3, /* tag */
    AHCI_EVENT_FAIL = 4,     /* tag, error, lba: the failing sector */
    AHCI_EVENT_RECOVER = 5,  /* tag: the one whose command had failed */
    AHCI_EVENT_REISSUE = 6,  /* tag */
    AHCI_EVENT_COLLECT = 7,  /* tag */
    AHCI_EVENT_IDENTIFY = 8, /* IDENTIFY DEVICE was carried out */
    AHCI_EVENT_FLUSH = 9,    /* FLUSH CACHE EXT, or FLUSH CACHE of a controller, was carried out */
    AHCI_EVENT_READ_LOG = 10, /* READ LOG EXT by itself: no port records it */
    AHCI_EVENT_ZERO = 11     /* DATA SET MANAGEMENT with TRIM has made sectors zeros: lba, sectors */
} ahci_event;

/* One entry. What its kind doesn't have is 0. */
typedef struct ahci_entry {
    uint64_t lba;
    uint32_t sectors;
    uint32_t kind; /* ahci_event */
    uint32_t tag;
    uint32_t error;
} ahci_entry;

/* What a driver's write of a register did. */
typedef enum ahci_wrote {
    AHCI_WROTE_WORD = 0,    /* no command was issued or ended */
    AHCI_WROTE_COMMANDS = 1, /* PxCI: the commands of `slots` are issued, or issued again */
    AHCI_WROTE_START = 2,   /* PxCMD: the port has recovered from the failure of `tag` */
    AHCI_WROTE_SOME = 3     /* PxCI, refused: the command of slot `tag` is not issued, and those of the slots below it are */
} ahci_wrote;

typedef struct ahci_written {
    uint32_t did;   /* ahci_wrote */
    uint32_t slots; /* of AHCI_WROTE_COMMANDS: the slots, as the bits of a word; else 0 */
    uint32_t tag;   /* of AHCI_WROTE_START and AHCI_WROTE_SOME; else 0 */
} ahci_written;

/* The whole visible state of a port, without padding: two ports that have done the same are equal by memcmp. */
typedef struct ahci_state {
    uint64_t first;         /* the number of the journal's first entry, and of the next one */
    uint64_t next;
    uint64_t numbers[32];   /* by tag: that of the request that owns the slot; 0 if it is free */
    uint32_t depth;
    uint32_t sectors;
    uint32_t halted;        /* 1 if a command has failed and the port has not recovered, else 0 */
    uint32_t issued;        /* as in ahci_tag_sets */
    uint32_t accepted;
    uint32_t held;
    uint32_t cap;           /* the registers (sections 3.1 and 3.3) */
    uint32_t ghc;
    uint32_t pi;
    uint32_t vs;
    uint32_t px_clb;
    uint32_t px_clbu;
    uint32_t px_fb;
    uint32_t px_fbu;
    uint32_t px_is;
    uint32_t px_ie;
    uint32_t px_cmd;
    uint32_t px_tfd;
    uint32_t px_sig;
    uint32_t px_ssts;
    uint32_t px_sctl;
    uint32_t px_serr;
    uint32_t px_sact;
    uint32_t px_ci;
    uint8_t received[256];  /* the received FIS area (section 4.2.1) */
    uint8_t phases[32];     /* by tag: ahci_phase */
} ahci_state;

/* A FIS (SATA, "FIS types"), with no padding. What its type doesn't have is 0. */
typedef struct ahci_fis {
    uint64_t lba;      /* H2D, D2H, PIO Setup: below 2^48 */
    uint32_t sactive;  /* Set Device Bits */
    uint32_t offset;   /* DMA Setup: the buffer offset in bytes */
    uint32_t transfer; /* DMA Setup: the transfer count in bytes */
    uint16_t features; /* H2D */
    uint16_t count;    /* H2D, D2H, PIO Setup */
    uint16_t bytes;    /* PIO Setup: the transfer count in bytes */
    uint16_t payload;  /* Data: how many bytes of payload follow byte 3 */
    uint8_t kind;      /* byte 0: 27h H2D, 34h D2H, 39h DMA Activate, 41h DMA Setup, 46h Data, 5Fh PIO Setup, A1h Set Device Bits */
    uint8_t c;         /* flags, 0 or 1: H2D */
    uint8_t a;         /* DMA Setup */
    uint8_t i;         /* D2H, DMA Setup, PIO Setup, Set Device Bits */
    uint8_t d;         /* DMA Setup, PIO Setup: from the device to the host */
    uint8_t status;    /* D2H, PIO Setup, Set Device Bits */
    uint8_t error;     /* the same */
    uint8_t device;    /* H2D, D2H, PIO Setup */
    uint8_t command;   /* H2D */
    uint8_t control;   /* H2D */
    uint8_t e_status;  /* PIO Setup: the status after the transfer */
    uint8_t tag;       /* DMA Setup: below 32 */
} ahci_fis;

/* The command of a window. */
typedef struct ahci_command {
    uint64_t lba;
    uint32_t sectors;
    uint32_t kind;   /* AHCI_READ or AHCI_WRITE, with FUA or without */
    uint32_t tag;
    uint32_t pieces; /* how many entries its PRDT has */
} ahci_command;

/* ---- a controller ---- */

/* The place of a controller, in the caller's memory. All zeros is an empty place. */
typedef struct ahci_hba {
    void *at;
    bool full;
} ahci_hba;
#define AHCI_HBA_EMPTY { NULL, false }

/* What a controller can do, as its CAP shows it (section 3.1.1), without padding. Of a flag, all but 0 is 1. */
typedef struct ahci_hba_capabilities {
    uint32_t ncs;  /* the number of command slots, 1 to 32; CAP.NCS is this number less 1 */
    uint32_t iss;  /* the fastest generation of the interface, 1 to 3 */
    uint32_t s64a; /* 64-bit addressing; with 0 the upper halves of all addresses are 0 */
    uint32_t sncq; /* native command queuing; with 0 a driver must not issue queued commands, which are carried out all the same */
    uint32_t sss;  /* staggered spin-up: the disk waits for PxCMD.SUD */
    uint32_t sclo; /* command list override: PxCMD.CLO has an effect */
    uint32_t salp; /* aggressive link power management: PxCMD.ALPE and PxCMD.ASP can be written; the link stays active */
    uint32_t pmd;  /* PIO multiple DRQ block; with 0 the data of several blocks are moved all the same */
} ahci_hba_capabilities;
#define AHCI_HBA_USUAL { 32, 2, 1, 1, 0, 1, 0, 1 }

/* What IDENTIFY DEVICE names the disk (ACS-3), without padding: texts of ASCII, 20h to 7Eh, filled up with spaces, in the order in which they are read. */
typedef struct ahci_identity {
    uint8_t serial[20];  /* serial number */
    uint8_t firmware[8]; /* firmware revision */
    uint8_t model[40];   /* model number */
    uint32_t rotation;   /* nominal media rotation rate: 0 is not reported, 1 a disk that doesn't rotate, or 1,025 to 65,534 revolutions a minute */
} ahci_identity;

/* What the controller does next with the driver's memory. */
typedef enum ahci_want {
    AHCI_WANT_NOTHING = 0,
    AHCI_WANT_READ = 1,  /* it reads a run of bytes: ahci_hba_supply gives them */
    AHCI_WANT_WRITE = 2  /* it writes some bytes: ahci_hba_bytes copies them out, and ahci_hba_written confirms that they are written */
} ahci_want;

/* An error of the interface, by the number of its bit in PxSERR (section 3.3.12, DIAG). */
typedef enum ahci_interface_error {
    AHCI_INTERFACE_DECODE = 19,         /* B: a character that can't be decoded */
    AHCI_INTERFACE_CRC = 21,            /* C: a FIS with a wrong CRC */
    AHCI_INTERFACE_HANDSHAKE = 22,      /* H: the device answered a FIS with R_ERR */
    AHCI_INTERFACE_LINK_SEQUENCE = 23,  /* S: an erroneous transition of the link layer */
    AHCI_INTERFACE_TRANSPORT_STATE = 24 /* T: one of the transport layer */
} ahci_interface_error;

/* What a device is, by its signature (section 3.3.9, PxSIG). */
typedef enum ahci_device_kind {
    AHCI_DEVICE_DISK = 0,             /* 00000101h */
    AHCI_DEVICE_PACKET = 1,           /* EB140101h: an ATAPI device */
    AHCI_DEVICE_ENCLOSURE_BRIDGE = 2, /* C33C0101h: an enclosure management bridge */
    AHCI_DEVICE_PORT_MULTIPLIER = 3   /* 96690101h */
} ahci_device_kind;

/* The next step with the command of a slot. Which of the slots comes first is the caller's choice. */
typedef enum ahci_hba_step_kind {
    AHCI_STEP_NONE = 0,    /* there is none now */
    AHCI_STEP_FETCH = 1,   /* the command is read: header, CFIS, PRDT and a write's data (section 5.3) */
    AHCI_STEP_SEND = 2,    /* it goes to the disk's queue: its request is in the journal then */
    AHCI_STEP_ACCEPT = 3,  /* the disk takes it, or refuses it if it passes the last sector */
    AHCI_STEP_SERVE = 4,   /* the disk moves its data and completes it, or fails a read of a sector that WRITE UNCORRECTABLE EXT has marked; or ahci_hba_fail fails it */
    AHCI_STEP_DELIVER = 5, /* its answer is assembled, and written next; by PIO, one block in each of these steps */
    AHCI_STEP_EXECUTE = 6, /* a command for which the disk's queue moves no sectors is carried out, or aborted */
    AHCI_STEP_CONTROL = 7, /* the disk takes a control FIS: one with SRST drops all commands (section 10.4.1) */
    AHCI_STEP_RECOVER = 8  /* the log of a failed queued command is read (section 6.2.2): what it held up is dropped */
} ahci_hba_step_kind;

/* What a controller does next, without padding. */
typedef struct ahci_hba_state {
    uint64_t address;   /* where it reads or writes next; 0 if it does neither */
    uint64_t length;    /* how many bytes; 0 if it does neither */
    uint32_t want;      /* ahci_want */
    uint32_t interrupt; /* the level of the interrupt line: 1 if it is asserted */
    uint32_t sign;      /* 1 if the disk can send its signature (ahci_hba_sign) */
    uint32_t depth;     /* how many queued commands IDENTIFY DEVICE allows */
    uint8_t next[32];   /* by slot: ahci_hba_step_kind */
} ahci_hba_state;

/* The rules of AHCI 1.3.1 for the software that drives a controller, each named for what breaks it. Sections: crates/hba_rules. */
typedef enum ahci_rule {
    AHCI_RULE_START_WITHOUT_RECEIVING = 0, /* ST is set while FRE is 0 and stays 0 (section 10.3.1) */
    AHCI_RULE_START_WITH_RECEIVING = 1, /* ST and FRE are set by one write (section 10.3.1) */
    AHCI_RULE_START_WHILE_BUSY = 2, /* ST is set while BSY or DRQ is 1 (section 10.3.1) */
    AHCI_RULE_START_WITHOUT_DEVICE = 3, /* ST is set while PxSSTS.DET is not 3 (section 10.3.1) */
    AHCI_RULE_RECEIVING_CLEARED_WHILE_STARTED = 4, /* FRE is cleared while ST is 1 (section 10.3.2) */
    AHCI_RULE_LIST_MOVED_WHILE_STARTED = 5, /* PxCLB or PxCLBU is changed while ST is 1 (section 10.3.1) */
    AHCI_RULE_AREA_MOVED_WHILE_RECEIVING = 6, /* PxFB or PxFBU is changed while FRE is 1 (section 3.3.7) */
    AHCI_RULE_CLEAR_BUSY_WHILE_STARTED = 7, /* CLO is set while ST is 1 (section 3.3.7) */
    AHCI_RULE_LINK_CHANGED_WHILE_STARTED = 8, /* PxSCTL.DET is changed while ST is 1 (section 3.3.11) */
    AHCI_RULE_RESERVED_LINK_STATE = 9, /* PxSCTL.DET is set to a reserved value (section 3.3.11) */
    AHCI_RULE_ACTIVE_WHILE_STOPPED = 10, /* a bit of PxSACT is set while ST is 0 (section 3.3.13) */
    AHCI_RULE_COMMAND_WHILE_STOPPED = 11, /* a bit of PxCI is set while ST is 0 (section 3.3.14) */
    AHCI_RULE_COMMAND_WHILE_HALTED = 12, /* a bit of PxCI is set after an error and before ST is cleared (section 6.2.2) */
    AHCI_RULE_MIXED_COMMANDS = 13, /* queued commands and others begin to be outstanding together (section 5.5.1) */
    AHCI_RULE_INTERRUPT_NOT_CLEARED = 14, /* IS is cleared while an enabled bit of PxIS is 1: it comes again (section 10.7.2) */
    AHCI_RULE_RESERVED_BITS = 15, /* reserved bits of a register are written 1 (section 3) */
    AHCI_RULE_FIS_LENGTH = 16, /* CFL is not the five dwords of a Register FIS - Host to Device, or the three of BIST Activate (section 4.2.2) */
    AHCI_RULE_NO_COMMAND_FIS = 17, /* CFIS is no Register FIS - Host to Device, and no BIST Activate FIS with B (section 4.2.3) */
    AHCI_RULE_ATAPI_FLAG = 18, /* A is 1 for another command than PACKET (section 4.2.2) */
    AHCI_RULE_WRITE_FLAG = 19, /* W is not the direction of the data (section 4.2.2) */
    AHCI_RULE_ACTIVE_WITHOUT_QUEUE = 20, /* PxSACT has the slot of a command that is not queued (section 3.3.13) */
    AHCI_RULE_QUEUE_WITHOUT_ACTIVE = 21, /* PxSACT does not have the slot of a queued command (section 5.5.1) */
    AHCI_RULE_TAG_NOT_SLOT = 22, /* the tag of a queued command is not its slot (section 3.3.13) */
    AHCI_RULE_RESERVED_HEADER = 23, /* reserved bits of a command header are not 0 (section 4.2.2) */
    AHCI_RULE_TABLE_UNALIGNED = 24, /* CTBA is not a multiple of 128 (section 4.2.2) */
    AHCI_RULE_ODD_ADDRESS = 25, /* DBA of a PRDT entry is odd (section 4.2.3) */
    AHCI_RULE_EVEN_COUNT = 26, /* bit 0 of DBC is 0: the length is odd (section 4.2.3) */
    AHCI_RULE_LIST_TOO_SHORT = 27, /* the PRDT has fewer bytes than the command moves (section 6.1.5) */
    AHCI_RULE_LIST_TOO_LONG = 28, /* the PRDT has more bytes than the command moves (section 6.1.6) */
    AHCI_RULE_LIST_UNALIGNED = 29, /* PxCLB is written an address that is not a multiple of 1,024 (section 3.3.1) */
    AHCI_RULE_AREA_UNALIGNED = 30, /* PxFB is written an address that is not a multiple of 256 (section 3.3.3) */
    AHCI_RULE_SLOT_USED_AGAIN = 31, /* a slot is used while PxCI or PxSACT still has it (section 5.5.1) */
    AHCI_RULE_ACTIVE_AFTER_ISSUE = 32, /* a bit of PxSACT is set after its bit of PxCI, not before (section 3.3.13) */
    AHCI_RULE_START_WITH_ERRORS = 33, /* ST is set while TFES, HBFS, HBDS or IFS of PxIS is 1 (section 6.2.2) */
    AHCI_RULE_START_WITH_SERR = 34, /* ST is set while PxSERR is not 0 (section 10.1.2) */
    AHCI_RULE_ENABLE_OVER_STATUS = 35, /* PxIE or GHC.IE enables what PxIS or IS already has (section 10.1.2) */
    AHCI_RULE_SPEED_ABOVE_INTERFACE = 36, /* PxSCTL.SPD is above CAP.ISS, or reserved (section 3.3.11) */
    AHCI_RULE_POWER_WITHOUT_CAPABILITY = 37, /* ICC, ALPE or ASP is set without the capability (section 3.1.1) */
    AHCI_RULE_QUEUE_WITHOUT_CAPABILITY = 38, /* a bit of PxSACT is set while CAP.SNCQ is 0 (section 3.1.1) */
    AHCI_RULE_PREFETCH_WITH_QUEUE = 39, /* P is 1 for a queued command (section 4.2.2) */
    AHCI_RULE_PORT_OF_MULTIPLIER = 40, /* PMP of a header or PM Port of a FIS is not 0, without port multipliers (section 4.2.2) */
    AHCI_RULE_BIST_FLAG = 41, /* B is 1 for a FIS that is no BIST Activate FIS (section 4.2.2) */
    AHCI_RULE_RESET_FLAGS = 42, /* R and C are not 1 for the FIS that sets SRST, or are 1 for another (section 10.4.1) */
    AHCI_RULE_RESERVED_FIS = 43, /* reserved bits of a Register FIS - Host to Device are not 0 (section 4.2.3) */
    AHCI_RULE_RESERVED_ENTRY = 44, /* reserved bits of a PRDT entry are not 0 (section 4.2.3) */
    AHCI_RULE_SLOT_ABOVE_LIST = 45 /* a bit of PxSACT or PxCI is set for a slot at or above CAP.NCS (section 3.1.1) */
} ahci_rule;
#define AHCI_RULES 46 /* how many there are */

/* ---- a port ---- */

/* Makes a port of `depth` slots over a copy of an image, in an empty place. It is started and has done nothing. The calls that make
   a port take some 80 KiB of stack, all others 4 KiB (measured by `make -C c stack`; no promise).
   AHCI_PORT_THERE, AHCI_BAD_SIZE, AHCI_BAD_DEPTH, AHCI_OUT_OF_MEMORY. */
uint32_t ahci_port_new(ahci_port *port, const uint8_t *image, size_t image_bytes, uint32_t depth);

/* The same over a disk of zeros. */
uint32_t ahci_port_new_zeros(ahci_port *port, uint32_t sectors, uint32_t depth);

/* As ahci_port_new, but the journal continues an earlier one: its first entry has the number `first`, at most 2^63.
   AHCI_BAD_FIRST after AHCI_BAD_DEPTH. */
uint32_t ahci_port_resume(ahci_port *port, const uint8_t *image, size_t image_bytes, uint32_t depth, uint64_t first);

/* Makes a port over a disk of `sectors`, 1 to 2^32 - 1, in an empty place. Until it is written, a sector is that of `base`, or zeros past the last
   whole sector of `base`, whose bytes don't change and are there as long as the port: those of a mapped file, say, or one byte for a disk of zeros. Memory is
   taken for the pages of 4,096 bytes that are written, when such a write is issued (AHCI_OUT_OF_MEMORY), and a trim takes time for the pages that were
   written since the last one. The journal's first entry has the number `first`, at most 2^63.
   AHCI_PORT_THERE, AHCI_BAD_SIZE if `sectors` is 0, AHCI_BAD_DEPTH, AHCI_BAD_FIRST, AHCI_OUT_OF_MEMORY. */
uint32_t ahci_port_over(ahci_port *port, const uint8_t *base, size_t base_bytes, uint32_t sectors, uint32_t depth, uint64_t first);

/* Frees a port, and leaves its place empty. AHCI_NO_PORT, as every call from here to ahci_port_state. */
uint32_t ahci_port_free(ahci_port *port);

/* How many slots there are, 1 to 32. */
uint32_t ahci_port_depth(ahci_port *port, uint32_t *depth);

/* How many sectors the disk has, 1 to 2^32 - 1. */
uint32_t ahci_port_sectors(ahci_port *port, uint32_t *sectors);

/* Reads the register at an offset from the HBA's base, in bytes (sections 3.1 and 3.3); those of port 0 begin at 100h.
   AHCI_UNALIGNED, AHCI_NO_SUCH_REGISTER. */
uint32_t ahci_port_register(ahci_port *port, uint32_t offset, uint32_t *word);

/* Software writes a word to PxIS, in which a 1 clears (section 3.3.5). */
uint32_t ahci_port_acknowledge(ahci_port *port, uint32_t mask);

/* Takes a word that a driver writes to the register at an offset (section 3.3). *done reports what the write did.
   PxSACT: a bit announces a command, of a slot that the port has and whose bit is not set already. AHCI_HALTED.
   PxCI: each newly set bit issues the command of that slot, the lowest slot first. Its header is in `list`, the 1,024 bytes
   at PxCLB. Its window, from the tag's base on as in ahci_port_issue, is in `windows`; slot s has the bytes from
   s * (windows_bytes / 32) on. A held command is issued again as it is in its slot. AHCI_HALTED, AHCI_NOT_QUEUED, and nothing
   has changed; or the status of ahci_port_issue for the first command that is not issued, with *done as AHCI_WROTE_SOME: the commands
   of the slots below it are issued, and the others have to be written again. A bit at or above the depth is AHCI_NOT_QUEUED, since no bit
   of PxSACT announces it.
   PxCMD, with FRE: without ST it stops a port whose command has failed, else AHCI_NOT_HALTED; with ST it starts the port again, which
   then recovers as by ahci_port_recover. AHCI_RUNNING without FRE; AHCI_OUT_OF_MEMORY.
   PxIS: a 1 clears. PxIE keeps the interrupts that the port has. PxCLB and PxFB: AHCI_RUNNING if they would move. All others
   ignore the word, and so do bits that the port does not have (CLO, SUD, POD of PxCMD).
   What is half written (bits of PxSACT that wait for PxCI, ST off) is forgotten once ahci_port_issue, ahci_port_submit,
   ahci_port_recover or ahci_port_reissue has done something: these calls take the place of register writes.
   AHCI_WRONG_LENGTH if list_bytes is not 1,024, for every register; AHCI_UNALIGNED, AHCI_NO_SUCH_REGISTER. */
uint32_t ahci_port_write_register(ahci_port *port, uint32_t offset, uint32_t word, const uint8_t *list, size_t list_bytes, const uint8_t *windows, size_t windows_bytes, ahci_written *done);

/* Reads a register as a driver finds it between its writes: PxSACT has the bits that are announced, and a port that was stopped
   by PxCMD shows no ST and no command. Otherwise as ahci_port_register. AHCI_UNALIGNED, AHCI_NO_SUCH_REGISTER. */
uint32_t ahci_port_read_register(ahci_port *port, uint32_t offset, uint32_t *word);

/* Copies the received FIS area (section 4.2.1): DMA Setup at 00h, PIO Setup at 20h, D2H Register at 40h, Set Device Bits at
   58h. AHCI_WRONG_LENGTH if out_bytes is not 256. */
uint32_t ahci_port_received(ahci_port *port, uint8_t *out, size_t out_bytes);

/* Issues the command of a window as it is in memory ("Building a Command"): the 32 bytes of its command header, and the
   memory from the tag's base on, 10000000h + tag * 4000000h, with the header's table and the PRDT's data. Its number is *number, that of its Issue
   entry. AHCI_BAD_TAG if the tag is not below 32, AHCI_WRONG_LENGTH if the header has not 32 bytes, then AHCI_HALTED,
   AHCI_NO_SUCH_TAG, AHCI_SLOT_OWNED; AHCI_OUT_OF_MEMORY if the window can't be copied; AHCI_BAD_HEADER, AHCI_BAD_COMMAND, AHCI_WRONG_TAG,
   AHCI_BAD_LIST; AHCI_OUT_OF_MEMORY if there is no room for the request. */
uint32_t ahci_port_issue(ahci_port *port, uint32_t tag, const uint8_t *header, size_t header_bytes, const uint8_t *memory, size_t memory_bytes, uint64_t *number);

/* Issues a read or a write (`kind`: ahci_kind) of `sectors` sectors from `lba` on, in a window that the library lays out: pieces of 4,096
   bytes for up to 256 sectors, and of 1 MiB for more. A write has 512 * sectors bytes of payload; a read's payload is ignored.
   AHCI_BAD_TAG, AHCI_BAD_KIND, AHCI_BAD_COUNT, AHCI_BAD_LBA, then as ahci_port_issue. */
uint32_t ahci_port_submit(ahci_port *port, uint32_t tag, uint32_t kind, uint64_t lba, uint32_t sectors, const uint8_t *payload, size_t payload_bytes, uint64_t *number);

/* The device takes a tag's command: a D2H Register FIS. It fails one that passes the last sector with error 10h: *done reports
   which. Doesn't allocate. AHCI_BAD_TAG, AHCI_HALTED, AHCI_NOT_ISSUED. */
uint32_t ahci_port_accept(ahci_port *port, uint32_t tag, ahci_stepped *done);

/* The device moves the data of the commands of 1 to 32 tags, a byte each, one after the other, and completes them by one Set
   Device Bits FIS. Doesn't allocate. AHCI_TOO_MANY_TAGS, AHCI_HALTED, AHCI_NOT_ACCEPTED, AHCI_BAD_TAGS. */
uint32_t ahci_port_serve(ahci_port *port, const uint8_t *tags, size_t count, ahci_stepped *done);

/* The device fails an accepted command at one of its sectors, with an error byte: a Set Device Bits FIS with ERR. Doesn't
   allocate. AHCI_BAD_TAG, AHCI_HALTED, AHCI_NOT_ACCEPTED, AHCI_OUTSIDE_COMMAND. */
uint32_t ahci_port_fail(ahci_port *port, uint32_t tag, uint8_t error, uint64_t lba, ahci_stepped *done);

/* Software recovers (section 6.2.2): the port is stopped and started, and READ LOG EXT names the failed tag, which is *tag.
   AHCI_NOT_HALTED, AHCI_OUT_OF_MEMORY. */
uint32_t ahci_port_recover(ahci_port *port, uint32_t *tag);

/* Software issues a held command again. Doesn't allocate. AHCI_BAD_TAG, AHCI_HALTED, AHCI_NOT_HELD. */
uint32_t ahci_port_reissue(ahci_port *port, uint32_t tag);

/* Takes the answer of request `number` of a tag, and frees its slot. A read's data is copied to `out`, which has room
   for all bytes of the request, even if it failed: ahci_port_slot reports how many. Doesn't allocate. AHCI_BAD_TAG,
   AHCI_STRANGER, AHCI_NOT_YET, AHCI_BUFFER_TOO_SMALL: the request is unchanged then, and can be collected again. */
uint32_t ahci_port_collect(ahci_port *port, uint32_t tag, uint64_t number, ahci_reply *reply, uint8_t *out, size_t out_bytes);

/* Sends IDENTIFY DEVICE (ACS-3), by slot 0: its page is copied to `out`, word w in bytes 2w and 2w + 1.
   AHCI_WRONG_LENGTH if out_bytes is not 512, AHCI_HALTED, AHCI_QUEUE_BUSY, AHCI_OUT_OF_MEMORY. */
uint32_t ahci_port_identify(ahci_port *port, uint8_t *out, size_t out_bytes);

/* Sends FLUSH CACHE EXT (ACS-3), by slot 0. AHCI_HALTED, AHCI_QUEUE_BUSY, AHCI_OUT_OF_MEMORY. */
uint32_t ahci_port_flush(ahci_port *port);

/* Tags by what they wait for. */
uint32_t ahci_port_tag_sets(ahci_port *port, ahci_tag_sets *sets);

/* One slot. AHCI_BAD_TAG; a tag that is not below the depth is a free slot. */
uint32_t ahci_port_slot(ahci_port *port, uint32_t tag, ahci_slot *slot);

/* Copies a sector as it is now. AHCI_WRONG_LENGTH if out_bytes is not 512, AHCI_NO_SUCH_SECTOR. */
uint32_t ahci_port_copy(ahci_port *port, uint64_t lba, uint8_t *out, size_t out_bytes);

/* Copies the numbers of the pages that may have changed since the port was made or last trimmed to the beginning of `pages`, which has
   room for `count`; *touched is how many there are. Page n has sectors 8n to 8n + 7, and no sector of any other page has changed. It is for a disk of
   ahci_port_over: AHCI_BAD_KIND if all of the disk is in memory. AHCI_BUFFER_TOO_SMALL; *touched says how many numbers need room then. */
uint32_t ahci_port_touched(ahci_port *port, uint32_t *pages, size_t count, uint64_t *touched);

/* Discards the journal and its memory if every slot is free: *entries is how many entries it had. Numbers keep counting.
   AHCI_BUSY, AHCI_SPENT. */
uint32_t ahci_port_trim(ahci_port *port, uint64_t *entries);

/* The entry of a number of the journal. AHCI_NO_SUCH_ENTRY. */
uint32_t ahci_port_entry(ahci_port *port, uint64_t number, ahci_entry *entry);

/* Copies the bytes of the write that the entry of a number issued, 512 * sectors of them, to the beginning of `out`.
   AHCI_NO_SUCH_ENTRY if there is none or it issues no write, AHCI_BUFFER_TOO_SMALL. */
uint32_t ahci_port_entry_bytes(ahci_port *port, uint64_t number, uint8_t *out, size_t out_bytes);

/* The whole visible state of a port. Doesn't allocate. */
uint32_t ahci_port_state(ahci_port *port, ahci_state *state);

/* ---- a controller: one HBA with one port, as a driver finds it (chapters 3, 4, 5, 6.2 and 10.1) ----

   The caller has the driver's memory, and no call reads or writes it: ahci_hba_state names the run of bytes to be read or written next, and
   the caller copies. A device's turn: while `want` is not AHCI_WANT_NOTHING, move bytes; then choose a slot whose `next` is not
   AHCI_STEP_NONE and take its step. Each byte of the memory is read at most once for a command, and may be anything.

   Power-on, a reset, cleared ST, COMRESET or a recovery drops all commands. If the disk's queue had requests then, its journal is
   discarded: *entries is how many entries it had, else 0. The new journal continues with the next number over the disk as it is. At any
   other time the journal only grows, until ahci_hba_trim. */

/* Makes a controller after power-on with AHCI_HBA_USUAL, in front of a disk with a copy of this image, in an empty place. `depth` is the queue
   depth of IDENTIFY DEVICE. AHCI_PORT_THERE, AHCI_BAD_SIZE, AHCI_BAD_DEPTH, AHCI_OUT_OF_MEMORY. */
uint32_t ahci_hba_new(ahci_hba *hba, const uint8_t *image, size_t image_bytes, uint32_t depth);

/* The same with these capabilities. AHCI_PORT_THERE, AHCI_BAD_SIZE, AHCI_BAD_DEPTH, AHCI_BAD_KIND if `ncs` is not 1 to 32 or `iss` is not 1
   to 3, AHCI_OUT_OF_MEMORY. */
uint32_t ahci_hba_new_with(ahci_hba *hba, const uint8_t *image, size_t image_bytes, uint32_t depth, const ahci_hba_capabilities *capabilities);

/* The same in front of a disk over a base, as ahci_port_over has it. AHCI_PORT_THERE, AHCI_BAD_SIZE if `sectors` is 0, AHCI_BAD_DEPTH,
   AHCI_BAD_KIND, AHCI_OUT_OF_MEMORY. A command that writes lacks memory where the device takes it (AHCI_OUT_OF_MEMORY of ahci_hba_step). */
uint32_t ahci_hba_over(ahci_hba *hba, const uint8_t *base, size_t base_bytes, uint32_t sectors, uint32_t depth, const ahci_hba_capabilities *capabilities);

/* Frees a controller, and leaves its place empty. AHCI_NO_PORT, as every call from here to ahci_hba_port. */
uint32_t ahci_hba_free(ahci_hba *hba);

/* What a driver reads at an offset of the registers, in 1, 2, 4 or 8 bytes. Every offset can be read: a place without a register reads 0, and
   so does an access that is not aligned to its size. AHCI_WRONG_LENGTH for any other size. */
uint32_t ahci_hba_read(ahci_hba *hba, uint32_t offset, uint32_t bytes, uint64_t *value);

/* Takes what a driver writes there. AHCI_WRONG_LENGTH for any other size. */
uint32_t ahci_hba_write(ahci_hba *hba, uint32_t offset, uint32_t bytes, uint64_t value, uint64_t *entries);

/* Power-on of a controller that is there: its PCI function is reset (FLR, VFIO_DEVICE_RESET), the machine is, or the function has lost its power, as
   by hot unplug, and may be another guest's next. It is as ahci_hba_new_with makes it with the same capabilities and depth, over the disk as it is;
   GHC.HR leaves PxCLB and PxFB, and doesn't make the disk Active. Doesn't allocate. */
uint32_t ahci_hba_power_on(ahci_hba *hba, uint64_t *entries);

/* What IDENTIFY DEVICE names the disk from now on: before the driver looks, as a rule. Its world wide name is made of serial number and model number. Power-on leaves
   it. AHCI_BAD_KIND if a character or the rotation rate is none of the above: nothing has changed. Doesn't allocate. */
uint32_t ahci_hba_identity(ahci_hba *hba, const ahci_identity *identity);

/* The disk has a volatile write cache, which is enabled from now on, or has none if `supported` is 0, as a new one. IDENTIFY DEVICE reports it (ACS-3, words 82 and 85), and with it
   SET FEATURES 02h and 82h enable and disable it; power-on and a hardware reset enable it again. The sectors are written at once all the same: with a cache a driver sends
   FLUSH CACHE where it needs them to last, which is an entry of the journal. Doesn't allocate. */
uint32_t ahci_hba_write_cache(ahci_hba *hba, uint32_t supported);

/* *enabled is 1 if the disk has a volatile write cache that is enabled now, else 0. With one, whoever stores the sectors may lose those that were written since the last FLUSH CACHE;
   SET FEATURES 82h, which disables it, wants them stored, and then each write before it is answered (ACS-3, "SET FEATURES"). Doesn't allocate. */
uint32_t ahci_hba_write_cache_enabled(ahci_hba *hba, uint32_t *enabled);

/* The sectors that DATA SET MANAGEMENT with TRIM names read as zeros from now on, or it is advice that changes no sector if `supported` is 0, as for a new disk. IDENTIFY DEVICE reports
   it (ACS-3, word 69: DRAT and RZAT), and so does page 03h of log 30h. No reset and no power cycle changes it, and another disk that is plugged in has it as the one before.
   Such a TRIM takes a step AHCI_STEP_EXECUTE for each range that names sectors, in the order of its data: the step makes them zeros, is an entry AHCI_EVENT_ZERO of the journal, and
   ends that they can't be read if WRITE UNCORRECTABLE EXT has marked them. One more step answers the command. Doesn't allocate. */
uint32_t ahci_hba_trim_zeros(ahci_hba *hba, uint32_t supported);

/* Events: what the link, the disk and the interface do by themselves, each at any time (chapter 6, and 7, "Hot Plug Operation"). *entries as by a reset.

   PhyRdy is lost: DET 0, DIAG.N and PRCS, PxTFD and PxSIG as after COMRESET, and a port with ST 1 stops at its command; PxCI and PxSACT stay until the driver clears ST. The disk drops all
   commands. Nothing changes while no link is up. */
uint32_t ahci_hba_lose_link(ahci_hba *hba, uint64_t *entries);

/* A disk that is plugged in and has no link makes itself known by COMINIT: DIAG.X and PCS, and the link comes up with the signature due if the port listens and SUD
   is 1. Nothing changes while the link is up: a disk that sends COMINIT then has lost PhyRdy before, so call ahci_hba_lose_link first. */
uint32_t ahci_hba_find_link(ahci_hba *hba);

/* The disk is pulled out: DET 0, and nothing that the driver writes brings the link up until ahci_hba_plug. It drops all commands and keeps its sectors. */
uint32_t ahci_hba_unplug(ahci_hba *hba, uint64_t *entries);

/* It is plugged in again, and makes itself known. A disk that is in does no more than that. */
uint32_t ahci_hba_plug(ahci_hba *hba);

/* Another disk is plugged in where one was pulled out, and makes itself known: of `sectors` sectors over a base, as ahci_hba_over has it, with this queue depth and this
   name. It is as new: settings, logs, buffer and counters are those of a disk that has never been used, and it has a write cache if the one that was pulled out had
   one. No command of that one reaches it, and the pages that ahci_hba_touched names are its own. The journal goes on by number; that of the disk that was pulled out is
   discarded, with its sectors: *entries is how many entries it had. On AHCI_OK the base of that disk, if it had one, is the caller's again; on any other answer the
   library keeps it, and not the one that is given. AHCI_NOT_READY if a disk is plugged in, AHCI_BAD_SIZE if `sectors` is 0, AHCI_BAD_DEPTH, AHCI_BAD_FIRST if the
   number of the next entry is over 2^63, AHCI_BAD_KIND as ahci_hba_identity, AHCI_OUT_OF_MEMORY. */
uint32_t ahci_hba_plug_other(ahci_hba *hba, const uint8_t *base, size_t base_bytes, uint32_t sectors, uint32_t depth, const ahci_identity *identity, uint64_t *entries);

/* A FIS meets this ahci_interface_error (sections 6.1.2 and 6.2.2): DIAG's bit with one of ERR, and IFS if it is fatal, which stops the port, else INFS, after
   which all goes on. Without a link nothing changes. AHCI_BAD_KIND for a number that is no error. */
uint32_t ahci_hba_fail_interface(ahci_hba *hba, uint32_t error, uint32_t is_fatal);

/* As ahci_hba_sign, with the signature of a device of this ahci_device_kind: what a driver meets where no disk is. The disk behind it answers commands as before.
   AHCI_BAD_KIND for a number that is no kind, AHCI_NOT_READY. */
uint32_t ahci_hba_sign_as(ahci_hba *hba, uint32_t kind);

/* FISes that no command asks for, written to the received FIS area before they take effect: a Set Device Bits FIS with I that names no tag, and with N unless
   `notification` is 0 (SDBS; N has no effect, since CAP.SSNTF is 0); a D2H Register FIS with I, status 50h and error 00h (DHRS, while ST is 1); and one of a type that isn't known, of these
   28 bytes at most, from the type on (UFS and DIAG.F). AHCI_NOT_READY while something is read or written, without a link, while FRE is 0 or the port waits for ST to be
   cleared, and, of a Register FIS, while BSY or DRQ is 1. AHCI_WRONG_LENGTH. */
uint32_t ahci_hba_receive_bits(ahci_hba *hba, uint32_t notification);
uint32_t ahci_hba_receive_register(ahci_hba *hba);
uint32_t ahci_hba_receive_unknown(ahci_hba *hba, const uint8_t *fis, size_t fis_bytes);

/* What the controller does next. Doesn't allocate. */
uint32_t ahci_hba_look(ahci_hba *hba, ahci_hba_state *state);

/* Supplies the bytes that the controller reads: `length` bytes, none if it reads none. AHCI_WRONG_LENGTH, AHCI_OUT_OF_MEMORY: the
   same bytes can be supplied again. */
uint32_t ahci_hba_supply(ahci_hba *hba, const uint8_t *bytes, size_t count);

/* Copies the bytes that the controller writes: `length` bytes, none if it writes none. AHCI_WRONG_LENGTH. */
uint32_t ahci_hba_bytes(ahci_hba *hba, uint8_t *out, size_t out_bytes);

/* The bytes that the controller writes are written. With the last ones of an answer the registers change, and the interrupt may be asserted. */
uint32_t ahci_hba_written(ahci_hba *hba);

/* The address that the controller reads or writes is no memory: HBFS, and the port halts (sections 3.3.5 and 6.1). */
uint32_t ahci_hba_unmapped(ahci_hba *hba);

/* The memory there gives or takes wrong data, as by an error that its check bits can't correct: HBDS, and the port halts. */
uint32_t ahci_hba_spoiled(ahci_hba *hba);

/* Takes the next step with the command of a slot: the one that `next` names. AHCI_BAD_TAG, AHCI_NOT_READY if there is none,
   AHCI_OUT_OF_MEMORY: the step can be taken again. */
uint32_t ahci_hba_step(ahci_hba *hba, uint32_t slot, uint64_t *entries);

/* The sectors that this step makes zeros, if it is one of a TRIM that does so: *lba is the first of them, and *sectors how many, else 0. AHCI_BAD_TAG. Doesn't allocate. */
uint32_t ahci_hba_trim_range(ahci_hba *hba, uint32_t slot, uint64_t *lba, uint32_t *sectors);

/* The disk fails a command that it has accepted with an error byte at one of its sectors, if the command is queued: a Set Device Bits FIS
   with ERR. Log 10h names that sector, and a driver takes the command's sectors before it as moved: Linux completes their requests. A read
   moves them; a write changes no sector, and its first one is named. AHCI_BAD_TAG, AHCI_NOT_READY if `next` is not AHCI_STEP_SERVE, if the
   command is not queued, or if the sector is not one of its own; AHCI_OUT_OF_MEMORY: the call can be repeated. */
uint32_t ahci_hba_fail(ahci_hba *hba, uint32_t slot, uint8_t error, uint64_t lba);

/* The disk fails a command that is not queued and was just read, with an error byte and an LBA: a D2H Register FIS with ERR. The sectors
   of a read before that LBA move; a write changes none, and its first one is named. AHCI_BAD_TAG, AHCI_BAD_LBA, AHCI_NOT_READY;
   AHCI_OUT_OF_MEMORY: the call can be repeated. */
uint32_t ahci_hba_refuse(ahci_hba *hba, uint32_t slot, uint8_t error, uint64_t lba);

/* The same with any status in place of 41h: 61h has DF, a device fault, beside ERR, and with 60h, DF alone, the port doesn't halt; with 50h a read ends well that has
   moved fewer bytes than its list has room for, as PRDBC says, and a write that has stored nothing; with D0h the disk stays busy. */
uint32_t ahci_hba_end(ahci_hba *hba, uint32_t slot, uint8_t status, uint8_t error, uint64_t lba);

/* The FIS of the disk's signature is taken, and written if FRE is 1; if not, `sign` is 1 again once FRE is 1. AHCI_NOT_READY if `sign` is 0. If
   its address is no memory (ahci_hba_unmapped), PxIS has HBFS and `sign` is 1 again: send it after the driver's next register write, not in a
   loop. */
uint32_t ahci_hba_sign(ahci_hba *hba);

/* Discards the journal of the disk's queue and its memory if the queue has no request: *entries is how many entries it had. Numbers
   keep counting, and nothing changes that a driver reads. If the driver keeps the queue full, take no AHCI_STEP_SEND until this succeeds:
   the requests end by the other steps, and no command takes their place. Doesn't allocate. AHCI_BUSY, AHCI_SPENT. */
uint32_t ahci_hba_trim(ahci_hba *hba, uint64_t *entries);

/* Copies a sector of the disk as it is now. AHCI_WRONG_LENGTH if out_bytes is not 512, AHCI_NO_SUCH_SECTOR. */
uint32_t ahci_hba_copy(ahci_hba *hba, uint64_t lba, uint8_t *out, size_t out_bytes);

/* Whether a sector of a disk with a volatile write cache may have these 512 bytes after a loss of power. It may have those that the last flush has made durable, and those of a write
   that was completed since or is outstanding (ACS-3, "Volatile write cache"). `was` are the 512 bytes that it had when the journal began. They are taken as durable; a reset begins
   the journal anew and is no flush. *may is 1 or 0. AHCI_WRONG_LENGTH, AHCI_NO_SUCH_SECTOR. */
uint32_t ahci_hba_may_be_left(ahci_hba *hba, const uint8_t *was, size_t was_bytes, uint64_t lba, const uint8_t *bytes, size_t bytes_bytes, uint32_t *may);

/* Copies the numbers of the pages that may have changed since the journal began, as ahci_port_touched has it.
   AHCI_BAD_KIND, AHCI_BUFFER_TOO_SMALL. */
uint32_t ahci_hba_touched(ahci_hba *hba, uint32_t *pages, size_t count, uint64_t *touched);

/* An entry of the disk's journal, and the bytes of the write that it issued: as ahci_port_entry and ahci_port_entry_bytes. When
   commands are dropped their journal is discarded, and its entries can't be read any more; the two that AHCI_STEP_RECOVER adds, a
   recover and a collect, never can. */
uint32_t ahci_hba_entry(ahci_hba *hba, uint64_t number, ahci_entry *entry);
uint32_t ahci_hba_entry_bytes(ahci_hba *hba, uint64_t number, uint8_t *out, size_t out_bytes);

/* The whole visible state of the queue behind the controller, as ahci_port_state: its requests by slot, its journal's numbers. Its registers
   are the queue's own; the driver's are those of ahci_hba_read. */
uint32_t ahci_hba_port(ahci_hba *hba, ahci_state *state);

/* ---- the rules for drivers: nothing here changes anything. *broken is 1 if the rule is broken, else 0 ---- */

/* Whether a word that a driver is about to write at an offset of the registers breaks a rule, before it is written.
   AHCI_NO_PORT, AHCI_BAD_KIND for a number that is not a rule, AHCI_NO_SUCH_REGISTER if no register of the controller is there. */
uint32_t ahci_hba_write_breaks(ahci_hba *hba, uint32_t rule, uint32_t offset, uint32_t word, uint32_t *broken);

/* Whether the command of a slot breaks a rule: the 32 bytes of its header, and the first 20 of its command table. `active` is not 0 if PxSACT
   has the slot. AHCI_BAD_KIND, AHCI_BAD_TAG, AHCI_WRONG_LENGTH. */
uint32_t ahci_command_breaks(uint32_t rule, uint32_t slot, uint32_t active, const uint8_t *header, size_t header_bytes, const uint8_t *fis, size_t fis_bytes, uint32_t *broken);

/* Whether an entry of a PRDT, of 16 bytes, breaks a rule. AHCI_BAD_KIND, AHCI_WRONG_LENGTH. */
uint32_t ahci_entry_breaks(uint32_t rule, const uint8_t *entry, size_t entry_bytes, uint32_t *broken);

/* Whether a PRDT with this total of bytes breaks a rule, for the command of a command FIS of 20 bytes. AHCI_BAD_KIND, AHCI_WRONG_LENGTH. */
uint32_t ahci_length_breaks(uint32_t rule, const uint8_t *fis, size_t fis_bytes, uint64_t total, uint32_t *broken);

/* ---- the layers alone, with no port ---- */

/* Reads a FIS, which takes all of the bytes. Reserved bits are ignored. The payload of a Data FIS comes after its first four
   bytes. AHCI_EMPTY_FIS, AHCI_UNKNOWN_TYPE, AHCI_WRONG_FIS_LENGTH. */
uint32_t ahci_fis_decode(const uint8_t *bytes, size_t count, ahci_fis *fis);

/* Writes a FIS, reserved bits 0, to the beginning of `out`: *length bytes, 8,196 at most. Fields that its type doesn't have are
   ignored. A Data FIS has this payload; for others it is ignored. AHCI_UNKNOWN_TYPE, then what is out of
   range: AHCI_BAD_FLAG, AHCI_BAD_LBA, AHCI_BAD_TAG, AHCI_BAD_STATUS, AHCI_BAD_PAYLOAD; AHCI_BUFFER_TOO_SMALL. */
uint32_t ahci_fis_encode(const ahci_fis *fis, const uint8_t *payload, size_t payload_bytes, uint8_t *out, size_t out_bytes, size_t *length);

/* Whether a port would take a window, and its command: AHCI_BAD_TAG, AHCI_WRONG_LENGTH, AHCI_OUT_OF_MEMORY, then the
   first rule that it breaks: AHCI_BAD_HEADER, AHCI_BAD_COMMAND, AHCI_WRONG_TAG, AHCI_BAD_LIST. `memory` begins at the tag's
   base, as in ahci_port_issue. */
uint32_t ahci_window_check(uint32_t tag, const uint8_t *header, size_t header_bytes, const uint8_t *memory, size_t memory_bytes, ahci_command *command);

/* The page of IDENTIFY DEVICE (ACS-3) of a disk of this size with 1 to 32 slots.
   AHCI_WRONG_LENGTH if out_bytes is not 512, AHCI_BAD_DEPTH. */
uint32_t ahci_identify_page(uint32_t sectors, uint32_t depth, uint8_t *out, size_t out_bytes);

/* Page 0 of log 10h (ACS-3, "NCQ Command Error log") after the error of a tag's command at a sector.
   AHCI_WRONG_LENGTH if out_bytes is not 512, AHCI_BAD_TAG, AHCI_BAD_LBA. */
uint32_t ahci_log_page(uint32_t tag, uint8_t error, uint64_t lba, uint8_t *out, size_t out_bytes);

/* Judges `count` events, the oldest first, as the journal of a port of 1 to 32 slots over a disk of this size, from its beginning:
   which may follow which, in linear time. Doesn't allocate. AHCI_NOT_ALLOWED: the event at place
   *first_bad, counted from 0, can't come after those before it, and these can. An event is read as ahci_port_entry fills it, and
   what its kind doesn't have is ignored; a write's bytes don't matter. One with
   another kind, a tag that is not below 32 or an error over 255 can't come anywhere. AHCI_BAD_DEPTH. */
uint32_t ahci_journal_check(uint32_t sectors, uint32_t depth, const ahci_entry *events, size_t count, size_t *first_bad);

/* Which tag of a set, the bits of a word, an order names (ahci_order). A draw is any number; AHCI_ORDER_DRAWN and AHCI_ORDER_ROUND
   look at it. AHCI_BAD_KIND for a number that is not an order, AHCI_BAD_TAGS if the set is empty. */
uint32_t ahci_choose_tag(uint32_t order, uint32_t set, uint64_t draw, uint32_t *tag);

/* Which tags of a set the device completes next, by one Set Device Bits FIS: up to `most` tags, at most 32, each named by the order out of those
   that are left. The tag named at place i has draws[i], and a draw that isn't there is 0. The list ends before the first tag of `failing`,
   the tags that the device is to fail; if that comes first, it is the only one. So either all tags are to be completed, or one is to be failed.
   The tags are copied to the beginning of `tags`, a byte each, and *length is how many there are: at least one, if `most` is not 0.
   AHCI_BAD_KIND for a number that is not an order, AHCI_BAD_TAGS if the set is empty, AHCI_BUFFER_TOO_SMALL. */
uint32_t ahci_choose_tags(uint32_t order, uint32_t set, uint32_t failing, uint32_t most, const uint64_t *draws, size_t count, uint8_t *tags, size_t tags_bytes, size_t *length);

/* ---- the library ---- */

/* The name of a status as `ahci replay` writes it, as "OutsideCommand"; one that it never writes is named as here, as "NoPort"; AHCI_OK
   is "Ok". It is copied to the beginning of `out` with a 0 byte after it, and *length is the name's, without the 0.
   AHCI_BAD_KIND for a number that is not a status, AHCI_BUFFER_TOO_SMALL: 32 bytes are enough. */
uint32_t ahci_status_text(uint32_t status, uint8_t *out, size_t out_bytes, size_t *length);

/* The library's version, as AHCI_VERSION. */
uint32_t ahci_version(void);

#ifdef __cplusplus
}
#endif
#endif
