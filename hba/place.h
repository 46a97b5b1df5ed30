/* A socket at a path, where the guest's program comes: in a folder of its own that nobody else can enter, or where the user wants it. */
#ifndef AHCI_HBA_PLACE_H
#define AHCI_HBA_PLACE_H

#include <stdbool.h>

#define PLACE_ROOM 108 /* bytes of a path, with the 0 behind it: as many as a socket's address has */

struct place {
    int listening;
    char folder[PLACE_ROOM - sizeof "/socket" + 1]; /* empty if the user has named the path */
    char path[PLACE_ROOM];
};

/* Makes the socket: at `wanted`, or in a new folder if that is NULL. A socket that a program has left there is replaced. It returns 0, or -1 once
   it has printed why. */
int place_begin(struct place *place, const char *wanted);

/* Takes the next one who has come; -1 if there is none. */
int place_accept(const struct place *place);

/* Removes the socket and its folder. */
void place_end(struct place *place);

#endif
