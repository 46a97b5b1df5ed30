/* Held interrupts: a message that is due waits for a while, so that the driver takes the answers of several commands by one interrupt. This is no part of
   the proved controller, whose interrupt line is as it is; it says only when a message of it is sent (--hold).

   A message waits at most for `longest`. It is sent before if the device has nothing to do and either `most` commands were issued meanwhile, or none for
   `gap`. Where no command comes while a message waits, as from a driver that makes one request at a time, messages are sent at once, and only one in
   many is held, to see whether that has changed. */
#ifndef AHCI_HBA_HOLD_H
#define AHCI_HBA_HOLD_H

#include <stdbool.h>
#include <stdint.h>

/* How long, in microseconds. */
struct hold_settings {
    uint32_t longest; /* 0: no message is held */
    uint32_t gap;
    uint32_t most;
};

struct hold {
    struct hold_settings settings;
    bool is_owed;    /* a message is due */
    uint32_t issued; /* writes of commands since then */
    uint32_t trust;  /* how many messages are still held although no command has come meanwhile */
    uint32_t skipped; /* how many messages are sent at once before one is held again */
    uint64_t since;  /* when it became due, in nanoseconds of CLOCK_MONOTONIC */
    uint64_t last;   /* when the driver issued commands last */
};

/* A message becomes due. It returns true if it is to be sent at once. */
bool hold_takes(struct hold *hold, uint64_t now);

/* The driver has issued commands. */
void hold_issued(struct hold *hold, uint64_t now);

/* How many nanoseconds a message that is due has still to wait, if the device has something to do or not; -1 if none is due. */
int64_t hold_waits(const struct hold *hold, bool is_idle, uint64_t now);

/* The message that was due is sent, or was not needed any more. */
void hold_end(struct hold *hold);

#endif
