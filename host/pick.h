/* Which of the commands that can go on the device goes on with: the option `pick` of both servers. */
#ifndef AHCI_HOST_PICK_H
#define AHCI_HOST_PICK_H

#include <ahci.h>
#include <stdint.h>

/* The order of a word: low, high, random or roundrobin. `list` names the words that a server has. It returns 0, or -1 once it has printed
   what was expected. */
int pick_take(const char *name, const char *text, const char *list, ahci_order *order);

/* The draw with which the order names a tag: of random the next number of the generator, of roundrobin the place after the tag that was named
   last, which is `next`, and else 0. */
uint64_t pick_draw(ahci_order order, uint64_t *random, uint32_t next);

#endif
