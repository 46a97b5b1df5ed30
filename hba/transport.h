/* What the main loop has to know of a transport: which files it waits for, and what to do once some of them are ready. */
#ifndef AHCI_HBA_TRANSPORT_H
#define AHCI_HBA_TRANSPORT_H

#include <poll.h>

#define MOST_WATCHED 8

/* What was found at a guest's socket. */
enum found {
    FOUND_NOTHING,
    FOUND_MESSAGE, /* one message was taken, and there may be more */
    FOUND_END,     /* the guest is gone */
    FOUND_WRONG    /* what came is no message of the protocol, which was said */
};

struct transport {
    void *it;
    unsigned (*watch)(void *it, struct pollfd *files);         /* fills in up to MOST_WATCHED files, and returns how many */
    enum found (*serve)(void *it, const struct pollfd *files); /* takes what is there by these files, one message at most */
    enum found (*look)(void *it); /* takes one message if there is one, without waiting; NULL if only `serve` can find out whether there is */
};

#endif
