/* The judge of drivers: which rules of AHCI 1.3.1 the guest breaks, as it breaks them, and a table at the end. The rules for one register
   write, one command or one list are the library's, and proved; what takes memory or time is compared here (driver_rules.h). What the guest does about the
   events of a script is followed (recovery.h). */
#ifndef AHCI_HBA_JUDGE_H
#define AHCI_HBA_JUDGE_H

#include "driver_rules.h"
#include "memory.h"
#include "recovery.h"

#include <stdbool.h>
#include <stddef.h>
#include <stdint.h>

/* A run of the guest's memory that was read for a command, with a sum of its bytes. */
struct judged_run {
    uint64_t address;
    uint64_t bytes;
    uint64_t sum;
    enum own_rule rule; /* which rule is broken if the bytes change */
};

/* The command of a slot. */
struct judged {
    uint8_t header[AHCI_HEADER_BYTES];
    uint8_t fis[20];
    unsigned stage;        /* how many runs were read: the header, the command FIS, then the PRDT and data */
    uint32_t entries_left; /* of the PRDT; 0 once no more of them are read */
    uint64_t total;        /* the bytes of the entries so far */
    struct judged_run *runs;
    size_t run_count, run_room;
};

/* What the driver has written, and not yet read or done as the standard wants it. */
struct judged_port {
    bool has_list, has_area;    /* PxCLB and PxFB were written */
    bool awaits_running;        /* ST was cleared, and CR not read as 0 */
    bool awaits_receiving;      /* the same of FRE and FR */
    bool awaits_clear_busy;     /* CLO was set, and not read as 0 */
    bool awaits_reset;          /* HR was set, and not read as 0 */
    bool awaits_link;           /* DET went to 0, and PxSSTS.DET was not read as 3 */
    bool is_master;             /* of the PCI bus */
    bool has_seen_port;         /* the port's bit of IS, at the last access to IS */
    uint32_t seen;              /* bits of PxIS at the last access to PxIS, or to IS with the port's bit; all if there was none */
    uint32_t armed;             /* bits of PxSACT that wait for PxCI */
    uint32_t control_slots;     /* bits of PxCI whose FIS is of a software reset */
    uint64_t comreset;          /* when DET became 1, in nanoseconds */
    bool has_asked_log;         /* after a failed queued command */
    bool was_reset;             /* the same, by SRST or COMRESET */
    bool is_resetting;          /* SRST was set by a FIS, and not cleared */
    bool was_exchanged;         /* PxSERR.DIAG.X, at the last access */
};

/* A rule that was broken in a stretch. */
struct breach {
    unsigned rule;
    uint32_t stretch;
    uint64_t times;
    char first[96];
};

struct judge {
    bool on;
    const char *json;  /* a file for the table, or NULL */
    const struct memory *memory; /* the guest's */
    uint32_t depth;    /* the queue depth of IDENTIFY DEVICE */
    uint32_t from;     /* the stretch from which breaches count */
    uint32_t stretch;  /* from 1: the stretches lie between resets of the HBA */
    struct breach *breaches;
    size_t breach_count, breach_room;
    size_t first_of_stretch;
    uint64_t shown[JUDGE_RULES];
    uint64_t writes, commands;
    struct judged_port port;
    struct judged slots[AHCI_MOST_TAGS];
    struct recovery recovery;
};

struct settings;

/* Begins to judge, if the settings say so. */
void judge_begin(struct judge *judge, const struct settings *settings, const struct memory *memory);

/* The driver is about to write to a register; it has read one. */
void judge_write(struct judge *judge, ahci_hba *hba, uint32_t offset, uint32_t bytes, uint64_t value);
void judge_read(struct judge *judge, ahci_hba *hba, uint32_t offset, uint32_t bytes, uint64_t value);

/* The driver makes the function a bus master, or none. */
void judge_master(struct judge *judge, ahci_hba *hba, bool is_master);

/* The controller is as after power-on. Whether the function is a bus master is configuration space's. */
void judge_power_on(struct judge *judge);

/* The command of a slot begins to be read; then each run of it, in order. */
void judge_fetch(struct judge *judge, uint32_t slot);
void judge_run(struct judge *judge, ahci_hba *hba, uint32_t slot, uint64_t address, const uint8_t *bytes, size_t count);

/* What the controller wants to read or to write is no memory. */
void judge_unmapped(struct judge *judge, uint64_t address, uint64_t bytes);

/* The command of a slot ends: what was read of it is compared with the guest's memory. */
void judge_answer(struct judge *judge, uint32_t slot);

/* Writes the table. It returns how many rules were broken that the standard has, or -1 if the table could not be written. */
int judge_end(struct judge *judge);

/* ---- for the parts of the judge ---- */

/* Counts a broken rule, and shows it if it was not shown often before. */
__attribute__((format(printf, 3, 4))) void judge_find(struct judge *judge, unsigned rule, const char *format, ...);

/* A word of the controller's registers. */
uint32_t judge_peek(ahci_hba *hba, uint32_t offset);

/* Finds two overlapping ranges of memory. */
void judge_overlap(struct judge *judge, const char *what, uint64_t at, uint64_t bytes, const char *other, uint64_t other_at, uint64_t other_bytes);

/* Whether the command table of a slot, in the guest's memory, has a FIS of a software reset. */
bool judge_is_control(const struct judge *judge, ahci_hba *hba, uint32_t slot);

/* An address as the controller takes it: without CAP.S64A the upper half is ignored. The first also finds one that is above 4 GiB then. */
uint64_t judge_reach(struct judge *judge, ahci_hba *hba, const char *what, uint64_t address);
uint64_t judge_taken(ahci_hba *hba, uint64_t address);

/* The list or the received FIS area. */
uint64_t judge_list(ahci_hba *hba);
uint64_t judge_area(ahci_hba *hba);

#define JUDGE_LIST_BYTES 1024
#define JUDGE_AREA_BYTES 256

#endif
