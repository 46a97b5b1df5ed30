/* Software's side of the port: requests become queued commands, and get their answers. Everything here but driver_submit is for the
   player alone (gate.h). */
#ifndef AHCI_NBD_DRIVER_H
#define AHCI_NBD_DRIVER_H

#include "gate.h"
#include "record.h"
#include "settings.h"

#include <ahci.h>
#include <stdbool.h>
#include <stdint.h>

/* The command of a tag that is not free. */
struct command {
    struct request *request;
    uint64_t number;    /* that of its request in the port's journal */
    uint64_t serial;    /* the first command is number 1 */
    bool is_decided;    /* the script was asked */
    struct decision failure; /* the line by which the device fails it, if it has one */
    uint64_t ready;     /* when a slow command can be served, in nanoseconds of CLOCK_MONOTONIC; 0: at once */
};

struct counts {
    uint64_t commands;
    uint64_t served;       /* tags */
    uint64_t out_of_order; /* tags that were served while a request with a smaller number waited in the device */
    uint64_t lists;        /* Set Device Bits FISes for several tags */
    uint64_t failed;
    uint64_t recoveries;
    uint64_t trims;
    uint32_t deepest; /* tags in the device at once */
};

struct driver {
    struct gate gate;
    bool has_thread; /* the device has a thread of its own, which is the player for good */
    /* the player's */
    ahci_port port;
    bool is_over;     /* the port is over the image, or over zeros: its disk is not in memory as a whole */
    struct disk disk; /* the port's sectors, for the image and the record */
    struct record record;
    struct settings *settings;
    struct request *first, **last; /* those that wait for a slot, the oldest first */
    struct request *unsafe;        /* writes with FUA that are done, and wait until they are in the image */
    struct request *answered;      /* those that have an outcome, and are not reported yet */
    struct command commands[AHCI_MOST_TAGS];
    uint32_t owned;    /* tags with a request, as bits */
    uint32_t issued;   /* those that the device has not accepted yet */
    uint32_t accepted; /* those that it has */
    uint64_t journal;  /* about how many bytes the port's journal has */
    struct counts counts;
    uint64_t random;  /* the state of pick=random, and of delay='s jitter */
    uint32_t next;    /* the place after the tag that the device has chosen last */
    uint64_t started; /* nanoseconds of CLOCK_MONOTONIC */
};

/* Makes the port and begins the record. They return 0, or -1 once they have printed why. */
int driver_begin(struct driver *driver, struct settings *settings);

/* Writes the image back, and frees all. */
int driver_end(struct driver *driver);

/* Hands a request to the player, or plays itself, and waits for its outcome, which it returns: 0 or an errno. */
int driver_submit(struct driver *driver, struct request *mine);

/* Takes the requests that have come in. */
void driver_take(struct driver *driver);

/* Issues commands for the requests that wait, as long as there are slots. */
void driver_issue(struct driver *driver);

/* Collects the answer of a tag that is done, and frees its slot. */
void driver_collect(struct driver *driver, uint32_t tag);

/* After a failure: the port recovers, the failed tag is collected, and the commands that it held up are issued again. */
void driver_recover(struct driver *driver);

/* The requests that are answered since the last call; the record has all that happened. */
struct request *driver_answered(struct driver *driver);

/* Wakes the threads of these requests. */
void driver_wake(struct request *answered);

/* Ends the process after a refusal that can't happen: the plugin and the port disagree. */
void driver_must(const char *call, uint32_t status);

#endif
