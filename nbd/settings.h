/* The parameters of nbdkit's command line. */
#ifndef AHCI_NBD_SETTINGS_H
#define AHCI_NBD_SETTINGS_H

#include "mapped.h"
#include "pick.h"
#include "script.h"

#include <stdbool.h>
#include <stdint.h>

/* When the image is written back. */
enum sync { SYNC_END, SYNC_FLUSH };

struct settings {
    uint32_t sectors; /* 1 to 2^32 - 1; 0 until it is known */
    uint32_t depth;   /* 1 to 32 */
    ahci_order pick;   /* which accepted tag the device goes on with */
    bool picks_all;    /* pick=all: the lowest first, and as many together as there are */
    uint64_t seed;     /* of pick=random */
    uint32_t together; /* 1 to 32: tags that one Set Device Bits FIS completes at most */
    struct delay delay; /* before each step of the device */
    uint64_t most_journal; /* bytes of the journal after which it is trimmed */
    struct mapped mapped;  /* the file with the disk's sectors */
    enum sync sync;
    char *record;          /* a folder for the record, or NULL */
    uint64_t record_limit; /* its bytes at most; 0: no limit */
    struct script *script;  /* which commands fail or are slow */
    char *script_file;      /* NULL: all of it comes from fail= and slow= */
    uint32_t given; /* parameters that were given, as bits */
};

/* The parameters as `nbdkit PLUGIN --help` shows them. */
extern const char settings_help[];

void settings_begin(struct settings *settings);

/* Takes one KEY=VALUE. It returns 0, or -1 once it has printed why. */
int settings_take(struct settings *settings, const char *key, const char *value);

/* Looks at all of them together, and settles the number of sectors. It returns as settings_take. */
int settings_complete(struct settings *settings);

/* Whether the device waits at times, and so needs a thread of its own. */
bool settings_have_waits(const struct settings *settings);

void settings_end(struct settings *settings);

#endif
