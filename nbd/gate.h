/* Who plays the port. At most one thread at a time is the player, and the port is the player's alone. A request is pushed to a list;
   whoever pushes to the list while nobody plays is the player, and the others wait. So no lock is held while requests come in, and the
   player finds several of them together.

   With a thread of the device's own (gate_keep) that thread is the player for good, and sleeps while there is nothing to do. */
#ifndef AHCI_NBD_GATE_H
#define AHCI_NBD_GATE_H

#include "request.h"

#include <stdatomic.h>
#include <stdbool.h>
#include <time.h>

struct gate {
    _Atomic(struct request *) arrived; /* NULL: nobody plays. Else the newest first, up to `end` */
    struct request end;                /* its address alone is used */
    atomic_bool asleep;                /* the device's own thread sleeps */
    sem_t wake;                        /* for that thread */
};

void gate_begin(struct gate *gate);
void gate_end(struct gate *gate);

/* The device's own thread is the player from now on, before any request is pushed. */
void gate_keep(struct gate *gate);

/* Pushes a request. It returns true if the calling thread is the player now; if not, gate_wait follows. */
bool gate_enter(struct gate *gate, struct request *mine);

/* Waits until the request is answered, or until its thread is to go on as the player; at first without sleeping, if `is_soon`. */
void gate_wait(struct request *mine, bool is_soon);

/* For the player: takes what was pushed since the last call, the oldest first; NULL if nothing was. */
struct request *gate_take(struct gate *gate);

/* For the player: stops being the player. It returns false if something was pushed, and the caller is the player still. */
bool gate_leave(struct gate *gate);

/* For the device's own thread: sleeps until something is pushed, or until a time of CLOCK_MONOTONIC (NULL: no such time). It may return
   early. */
void gate_sleep(struct gate *gate, const struct timespec *until);

#endif
