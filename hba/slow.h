/* Bits of registers that change slowly: after a write that changes CR, FR, CLO or HR, so many reads still have the old bit (--slow-bits), or all reads
   for a while (the events slow_cr, slow_fr, slow_clo and slow_hr). The controller itself changes them at once; here lies what a read of a driver shows. */
#ifndef AHCI_HBA_SLOW_H
#define AHCI_HBA_SLOW_H

#include <stdbool.h>
#include <stdint.h>

enum slow_bit { SLOW_CR, SLOW_FR, SLOW_CLO, SLOW_HR, SLOW_BITS };

struct slow {
    uint32_t reads; /* how many reads have the old bit; 0: none */
    bool old[SLOW_BITS];
    uint32_t left[SLOW_BITS];  /* reads that have it still */
    uint64_t until[SLOW_BITS]; /* reads have it until then, in nanoseconds of CLOCK_MONOTONIC */
    uint64_t armed[SLOW_BITS]; /* the next change takes so many microseconds; 0: it is not slow by an event */
    bool is_timed;             /* some bit is or was slow by an event */
};

/* Whether some bit may be slow; else the other calls do nothing. */
bool slow_is_on(const struct slow *slow);

/* The next change of a bit is seen so many microseconds later. */
void slow_arm(struct slow *slow, enum slow_bit it, uint64_t microseconds);

/* Whether an access writes 1 to a slow bit. */
bool slow_sets(enum slow_bit it, uint32_t offset, uint32_t bytes, uint64_t value);

/* A register was written: PxCMD was one word before, and is another now; `offset` and `bytes` are those of the access, `now` is nanoseconds of
   CLOCK_MONOTONIC. */
void slow_write(struct slow *slow, uint32_t offset, uint32_t bytes, uint64_t value, uint32_t command_before, uint32_t command_now, uint64_t now);

/* What a read of a driver gives, from what the controller has. */
uint64_t slow_read(struct slow *slow, uint32_t offset, uint32_t bytes, uint64_t value, uint64_t now);

/* The PCI function was reset, or the HBA: no bit has its old value. */
void slow_reset(struct slow *slow);

#endif
