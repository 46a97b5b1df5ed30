/* The follower of recoveries: what a driver does about each event of a script, against AHCI 1.3.1, section 6.2.2 and chapters 7 and 10, and what becomes of
   the commands that were outstanding. One event is followed at a time. It is a part of the judge, and sees what the judge sees. */
#ifndef AHCI_HBA_RECOVERY_H
#define AHCI_HBA_RECOVERY_H

#include "command.h"
#include "event_table.h"

#include <ahci.h>
#include <stdbool.h>
#include <stddef.h>
#include <stdint.h>
#include <stdio.h>

struct judge;

/* What a driver is to do, as the standard has it; recovery_table.c has the words, and which of them each recovery has. */
enum recovery_step {
    STEP_CAUSE,    /* PxIS is read with its cause, before ST is cleared */
    STEP_ISSUED,   /* PxCI is read before ST is cleared */
    STEP_ACTIVE,   /* PxSACT is */
    STEP_SLOT,     /* PxCMD.CCS is */
    STEP_STOP,     /* ST is cleared */
    STEP_STOPPED,  /* CR is read as 0 */
    STEP_LIST,     /* PxCLB is written */
    STEP_AREA,     /* PxFB is */
    STEP_RECEIVE,  /* FRE is set */
    STEP_LINK,     /* PxSSTS.DET is read as 3 */
    STEP_ERRORS,   /* PxSERR is cleared */
    STEP_STATUS,   /* the bits of PxIS that halt a port are */
    STEP_RESET,    /* COMRESET or CLO, while ST is 0: at any place between STEP_STOPPED and STEP_START */
    STEP_READY,    /* BSY and DRQ are read as 0 while ST is 0 */
    STEP_START,    /* ST is set */
    STEP_LOG,      /* READ LOG EXT of log 10h */
    RECOVERY_STEPS
};

/* What it may do besides. */
enum recovery_extra { EXTRA_STOP, EXTRA_COMRESET, EXTRA_CLO, EXTRA_SOFT_RESET, EXTRA_HBA_RESET, EXTRA_LOG, RECOVERY_EXTRAS };

/* Which steps an event asks for. */
enum recovery_flow { FLOW_NOTHING, FLOW_SINGLE, FLOW_QUEUED, FLOW_LINK, FLOW_GONE, FLOW_POWER, RECOVERY_FLOWS };

/* What became of a request: a command that was outstanding at the event. */
enum recovery_fate {
    FATE_ANSWERED, /* it was answered, without being issued again */
    FATE_AGAIN,    /* it was issued again, and answered */
    FATE_FAILED,   /* it was answered with an error, and not issued again */
    FATE_LOST,     /* it was never answered */
    FATE_TWICE,    /* it was answered, then issued again and answered again */
    FATE_OTHER,    /* as FATE_LOST, and its memory was used for other sectors */
    RECOVERY_FATES
};

enum followed_state {
    REQUEST_WAITS,   /* it is outstanding in its slot */
    REQUEST_UNSEEN,  /* it is answered, and the driver has not read that */
    REQUEST_SEEN,    /* it has */
    REQUEST_FAILED,  /* it is answered with an error */
    REQUEST_DROPPED, /* it is outstanding no more, without an answer */
    REQUEST_OTHER,   /* the same, and its memory is used by another one */
    REQUEST_ISSUED,  /* it is issued again, and waits in its slot */
    REQUEST_DONE     /* it is answered then */
};

#define NO_SLOT 32

struct followed {
    struct command command;
    uint64_t data;         /* the address of its first bytes of data; 0: none is known */
    uint32_t slot;         /* or NO_SLOT */
    enum followed_state state;
    bool was_answered;     /* before it was issued again */
};

enum recovery_ending { ENDING_DONE, ENDING_NEXT /* another event came first */, ENDING_RUN /* the run ended */ };

/* A report: what was done about one event. Steps and extras are bits. */
struct recovery_report {
    enum event_kind kind;
    enum recovery_flow flow;
    unsigned row;     /* of the script; 0: an option */
    uint32_t stretch; /* of the judge */
    uint32_t seen;    /* in the standard's order */
    uint32_t late;    /* out of it */
    uint32_t missing;
    uint32_t cut;     /* not seen when the next event came */
    uint32_t extras;
    uint32_t fates[RECOVERY_FATES];
    uint32_t carried; /* requests that the next report has */
    uint32_t beside;  /* events meanwhile that ask for nothing */
    enum recovery_ending ending;
};

/* The longest row of steps in the standard's order that ends with one of them. */
struct recovery_chain {
    uint32_t steps, length, stamp;
};

#define MOST_REQUESTS 64

struct recovery {
    bool is_open; /* an event is followed */
    struct recovery_report report;
    struct recovery_chain chains[RECOVERY_STEPS];
    uint32_t stamp;
    uint32_t came;       /* steps, as bits */
    bool was_started;    /* ST was 1 at the event */
    bool had_commands;   /* and some command was outstanding */
    bool had_errors;     /* PxSERR was not 0 */
    bool had_status;     /* a bit of PxIS was 1 that halts a port */
    bool was_busy;       /* BSY or DRQ was 1 when the device was reset, or when ST was set without that */
    bool was_reset;      /* COMRESET, a software reset, or one of the HBA */
    uint32_t apart;      /* steps that have no place in the row: STEP_CAUSE if it came before STEP_STOP, and STEP_RESET if ST was 0 then */
    uint32_t left;       /* how many commands are followed yet */
    struct followed requests[MOST_REQUESTS];
    unsigned count;
    struct recovery_report *reports;
    size_t reports_count, reports_room;
    uint64_t unstored;   /* reports that there was no room for */
};

/* An event of a script is about to happen. `failed` is the slot whose command fails by it, or NO_SLOT. */
void recovery_event(struct judge *judge, ahci_hba *hba, enum event_kind kind, unsigned row, uint32_t failed);

/* The driver is about to write a word; it has read the bits of a mask of one. */
void recovery_write(struct judge *judge, ahci_hba *hba, uint32_t offset, uint32_t word);
void recovery_read(struct judge *judge, ahci_hba *hba, uint32_t offset, uint32_t mask, uint32_t word);

/* The function was reset: nothing is outstanding any more. */
void recovery_power_on(struct judge *judge);

/* Another disk has come: no command that was outstanding can be issued again. */
void recovery_exchange(struct judge *judge);

/* The command FIS of a slot was read; `table` is where its table is. */
void recovery_command(struct judge *judge, uint32_t slot, const uint8_t *fis, uint64_t table, uint32_t entries);

/* The run ends. */
void recovery_end(struct judge *judge);

/* ---- steps (recovery_steps.c) ---- */

/* The driver takes a step. */
void recovery_take(struct recovery *recovery, enum recovery_step step);

/* Sorts the steps of the report: seen, out of order, missing, and those that another event cut off. */
void recovery_sort(struct recovery *recovery);

/* ---- requests (recovery_requests.c) ---- */

/* Adds what is outstanding. */
void requests_begin(struct judge *judge, ahci_hba *hba);

/* Which are answered by now, by what PxCI and PxSACT have. */
void requests_look(struct recovery *recovery, uint32_t outstanding);

/* The driver has read a word of PxCI or PxSACT, or writes one. */
void requests_read(struct recovery *recovery, bool is_active, uint32_t mask, uint32_t word);
void requests_write(struct recovery *recovery, uint32_t word);

/* The command of a slot fails. */
void requests_fail(struct recovery *recovery, uint32_t slot);

/* Nothing is outstanding any more. */
void requests_drop(struct recovery *recovery);

/* Counts what became of them so far, and forgets them: a command of the same sectors is another one now. */
void requests_leave(struct recovery *recovery);

/* A command was read: it may be one of them again. */
void requests_match(struct recovery *recovery, uint32_t slot, const struct command *command, uint64_t data);

/* Whether each was answered right or with an error that the driver has taken, or issued again and answered. */
bool requests_are_settled(const struct recovery *recovery);

/* Counts what became of them. Those that are not settled stay if `carries`. */
void requests_end(struct recovery *recovery, bool carries);

/* ---- words and tables (recovery_table.c) ---- */

extern const char *const recovery_steps[RECOVERY_STEPS];
extern const char *const recovery_extras[RECOVERY_EXTRAS];

/* The steps of a flow in the standard's order, RECOVERY_STEPS behind the last one. */
const enum recovery_step *recovery_order(enum recovery_flow flow);

/* Whether a flow has a step. */
bool recovery_has(enum recovery_flow flow, enum recovery_step step);

/* Writes the table, and the same as the value of a JSON object's name. */
void recovery_write_table(const struct recovery *recovery, FILE *file);
void recovery_write_json(const struct recovery *recovery, FILE *file);

#endif
