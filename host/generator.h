/* A generator of random numbers of its own, so that a seed gives the same choices on every machine and in both servers. */
#ifndef AHCI_HOST_GENERATOR_H
#define AHCI_HOST_GENERATOR_H

#include <stdint.h>

/* The state that a seed begins with. */
uint64_t generator_of(uint64_t seed);

/* The next number (xorshift64*). The state is never 0. */
uint64_t next_random(uint64_t *state);

#endif
