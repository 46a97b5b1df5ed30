/* The options of the command line. */
#ifndef AHCI_HBA_SETTINGS_H
#define AHCI_HBA_SETTINGS_H

#include "hold.h"
#include "mapped.h"
#include "numbers.h"
#include "pick.h"
#include "script.h"

#include <ahci.h>
#include <stdbool.h>
#include <stdint.h>

/* What starts: a program of QEMU, or a kernel of User Mode Linux; or nothing, and any client of vfio-user comes. */
enum guest { GUEST_QEMU, GUEST_UML, GUEST_CLIENT };

/* How QEMU has the device. */
enum way { WAY_ASKED /* by what QEMU knows */, WAY_VFIO_USER, WAY_PROXY };

/* When the image is written back. */
enum sync { SYNC_END, SYNC_FLUSH };

struct settings {
    enum guest guest;
    enum way way;
    const char *socket; /* where it is served by vfio-user, or NULL for a folder of its own */
    struct hold_settings hold;
    bool has_hold;      /* it was given */
    uint32_t sectors; /* 1 to 2^32 - 1 */
    uint32_t depth;   /* 1 to 32: the queue depth of IDENTIFY DEVICE */
    ahci_hba_capabilities capabilities; /* of the controller */
    ahci_identity identity; /* what IDENTIFY DEVICE names the disk */
    ahci_order pick;  /* which of the commands that the device has taken it goes on with */
    uint64_t seed;    /* of --pick random */
    struct delay delay; /* before the device answers a command */
    struct script *script; /* which commands fail, are slow or are never answered, and what else happens */
    const char *script_file; /* NULL: all of it comes from --fail, --slow and --stall */
    bool write_cache;   /* the disk has a volatile write cache: a loss of power may lose writes that were answered */
    bool trim_zeros;    /* sectors that the guest trims are zeros, and don't stay as they are */
    bool refuse_log;    /* the log of a failed queued command can't be read */
    struct mapped mapped; /* a file with the disk's sectors */
    enum sync sync;
    uint64_t most_journal; /* bytes of the journal after which it is trimmed */
    uint32_t memory_wait;  /* seconds without memory after which the program ends, or 0 */
    const char *record;    /* a folder for the record, or NULL */
    uint64_t record_limit; /* its bytes at most; 0: no limit */
    const char *log;       /* a file for a line of each access, or NULL */
    bool judge;            /* the driver is judged */
    const char *json;      /* a file for what the judge found, or NULL */
    uint32_t judge_from;   /* the first stretch between resets of the HBA whose breaches count */
    uint32_t slow_bits;    /* how many reads have the old value of CR, FR, CLO and HR */
    uint32_t given;        /* options that were given, as bits */
    char **command;        /* the guest's program and its arguments, with NULL at the end */
};

/* What is to be done with the command line. */
enum asked { ASKED_RUN, ASKED_NOTHING, ASKED_WRONGLY };

/* Reads the command line. The texts of --help and --version are written here (ASKED_NOTHING), and so is what is wrong (ASKED_WRONGLY). The
   strings of `words` are kept. */
enum asked settings_read(struct settings *settings, int count, char **words);

void settings_end(struct settings *settings);

#endif
