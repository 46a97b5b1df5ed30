/* The names of commands (ACS-3) and of the controller's registers (AHCI 1.3.1, sections 3.1 and 3.3). */
#ifndef AHCI_HOST_NAMES_H
#define AHCI_HOST_NAMES_H

#include <stdint.h>

/* The queued commands. */
enum { READ_FPDMA_QUEUED = 0x60, WRITE_FPDMA_QUEUED = 0x61 };

/* The command whose name is the longest one at the beginning of some words, which end with NULL: its code, and how many words the name has; 0 if there is
   none. */
unsigned command_named(char *const *words, uint8_t *code);

/* The name of a command, or NULL. */
const char *command_name(uint8_t code);

/* The offset of a register, or -1. */
int register_named(const char *name);

/* The name of the register at an offset, or NULL. */
const char *register_name(uint32_t offset);

#endif
