/* Messages of a socket with the files that come with them. */
#ifndef AHCI_HBA_SOCKET_H
#define AHCI_HBA_SOCKET_H

#include "transport.h"

#include <stdbool.h>
#include <stddef.h>
#include <sys/types.h>

#define MOST_FILES 8

struct files {
    int at[MOST_FILES];
    unsigned count;
};

/* Receives some bytes without waiting, at most `count`, and appends the files that come with them. It returns how many came: 0 at the end of the
   stream, or -1 with errno. */
ssize_t socket_take(int socket, void *bytes, size_t count, struct files *files);

/* Receives exactly so many bytes. At the end of the stream the answer is FOUND_END, or FOUND_WRONG, once it was said, if only some bytes came. */
enum found socket_receive(int socket, void *bytes, size_t count, struct files *files);

/* Sends all of the bytes. It returns false if the other side is gone, or doesn't take them in time. */
bool socket_send(int socket, const void *bytes, size_t count);

/* Closes the files that are left. */
void files_close(struct files *files);

/* Takes one of the files, which is the caller's then; -1 if there are not so many. */
int files_take(struct files *files, unsigned which);

/* Closes a file if there is one, which there is not any more then. */
void file_close(int *file);

#endif
