#include "command.h"

#include <ahci.h>
#include <stddef.h>

#define H2D 0x27
#define WRITE_DMA_FUA_EXT 0x3D
#define WRITE_MULTIPLE_FUA_EXT 0xCE

/* Where a command has the number of its sectors. */
enum place {
    PLACE_NONE,  /* it names no sectors */
    PLACE_QUEUE, /* 16 bits of Features; an LBA of 48 bits */
    PLACE_LONG,  /* 16 bits of Count; an LBA of 48 bits */
    PLACE_SHORT  /* 8 bits of Count; an LBA of 28 bits */
};

static enum place place_of(uint8_t code, bool *writes) {
    *writes = false;
    switch (code) {
    case AHCI_WRITE_FPDMA_QUEUED:
        *writes = true;
        return PLACE_QUEUE;
    case AHCI_READ_FPDMA_QUEUED:
        return PLACE_QUEUE;
    case 0x34: /* WRITE SECTOR(S) EXT */
    case 0x35: /* WRITE DMA EXT */
    case 0x39: /* WRITE MULTIPLE EXT */
    case WRITE_DMA_FUA_EXT:
    case WRITE_MULTIPLE_FUA_EXT:
        *writes = true;
        return PLACE_LONG;
    case 0x24: /* READ SECTOR(S) EXT */
    case 0x25: /* READ DMA EXT */
    case 0x29: /* READ MULTIPLE EXT */
    case 0x42: /* READ VERIFY SECTOR(S) EXT */
        return PLACE_LONG;
    case 0x30: /* WRITE SECTOR(S) */
    case 0xC5: /* WRITE MULTIPLE */
    case 0xCA: /* WRITE DMA */
        *writes = true;
        return PLACE_SHORT;
    case 0x20: /* READ SECTOR(S) */
    case 0xC4: /* READ MULTIPLE */
    case 0xC8: /* READ DMA */
    case 0x40: /* READ VERIFY SECTOR(S) */
        return PLACE_SHORT;
    default:
        return PLACE_NONE;
    }
}

/* A count of sectors, of which 0 is the largest. */
static uint32_t count_of(uint32_t field, uint32_t largest) {
    return field ? field : largest;
}

struct command command_of(const uint8_t fis[COMMAND_FIS_BYTES]) {
    struct command command = {.flushes = false};
    ahci_fis it;
    if (ahci_fis_decode(fis, COMMAND_FIS_BYTES, &it) != AHCI_OK || it.kind != H2D || !it.c)
        return command;
    command.is_command = true;
    command.code = it.command;
    command.flushes = it.command == AHCI_FLUSH_CACHE_EXT || it.command == 0xE7;
    command.reads_error_log = (it.command == 0x2F || it.command == 0x47) && (it.lba & 0xFF) == 0x10;
    command.lba = it.lba;
    switch (place_of(it.command, &command.writes)) {
    case PLACE_QUEUE:
        command.queued = true;
        command.has_fua = command.writes && it.device & 0x80;
        command.sectors = count_of(it.features, 65536);
        break;
    case PLACE_LONG:
        command.has_fua = it.command == WRITE_DMA_FUA_EXT || it.command == WRITE_MULTIPLE_FUA_EXT;
        command.sectors = count_of(it.count, 65536);
        break;
    case PLACE_SHORT:
        command.sectors = count_of(it.count & 0xFF, 256);
        command.lba = (it.lba & 0xFFFFFF) | (uint64_t)(it.device & 0x0F) << 24;
        break;
    default:
        break;
    }
    return command;
}
