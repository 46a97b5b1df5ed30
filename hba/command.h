/* What a command FIS asks, as far as the options have to know it (ACS-3, the commands by their titles). */
#ifndef AHCI_HBA_COMMAND_H
#define AHCI_HBA_COMMAND_H

#include <stdbool.h>
#include <stdint.h>

#define COMMAND_FIS_BYTES 20

struct command {
    bool is_command;  /* it is one, and no control */
    uint8_t code;
    bool flushes;     /* FLUSH CACHE, with EXT or without */
    bool reads_error_log; /* READ LOG EXT of log 10h, by PIO or by DMA */
    bool queued;      /* READ or WRITE FPDMA QUEUED */
    bool writes;      /* it writes the sectors that it names */
    bool has_fua;     /* WRITE FPDMA QUEUED with FUA, WRITE DMA FUA EXT, WRITE MULTIPLE FUA EXT */
    uint64_t lba;     /* the sectors that it names; none for other commands */
    uint32_t sectors;
};

/* Reads the first 20 bytes of CFIS. Bytes that are no command ask nothing. */
struct command command_of(const uint8_t fis[COMMAND_FIS_BYTES]);

#endif
