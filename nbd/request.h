/* A request of a client, on the stack of nbdkit's thread that has it. */
#ifndef AHCI_NBD_REQUEST_H
#define AHCI_NBD_REQUEST_H

#include <semaphore.h>
#include <stdbool.h>
#include <stdint.h>

#define REQUEST_MOST_SECTORS 8192 /* of one command: a client's request of more is split */

enum request_kind { REQUEST_READ, REQUEST_WRITE, REQUEST_FLUSH, REQUEST_STOP };

struct request {
    struct request *next; /* in the list that it is in */
    #define REQUEST_MOST_SECTORS 8192 /* of one command: a client's request of more is split */

enum request_kind kind;
    bool fua;            /* of a write */
    bool plays;          /* its thread goes on as the player (gate.h) */
    uint64_t lba;        /* of a read or a write, as all from here to `from` */
    uint32_t sectors;    /* at most REQUEST_MOST_SECTORS, since it becomes one command */
    uint8_t *into;       /* where a read's bytes go */
    const uint8_t *from; /* a write's bytes */
    int outcome;         /* 0 or an errno */
    sem_t answered;      /* posted once: the outcome is there, or `plays` is true */
};

#endif
