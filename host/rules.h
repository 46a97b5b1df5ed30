/* The options fail, slow and stall: short forms of a script's lines (README.md, "Rules"). */
#ifndef AHCI_HOST_RULES_H
#define AHCI_HOST_RULES_H

#include "script.h"

#define MOST_RULES 64 /* of each option */

/* The option of a name: EVENT_FAIL, EVENT_SLOW or EVENT_STALL; EVENT_KINDS if it is none of a server's. */
enum event_kind rules_kind(const char *name, unsigned server);

/* Parses the value of an option into one more line. It returns 0, or -1 after it has printed what was expected. */
int rules_take(struct script *script, enum event_kind kind, const char *value);

#endif
