#include "names.h"

#include <stddef.h>
#include <string.h>

static const struct {
    const char *name;
    uint8_t code;
} commands[] = {
    {"NOP", 0x00},
    {"DATA SET MANAGEMENT", 0x06},
    {"READ SECTOR(S)", 0x20},
    {"READ SECTOR(S) EXT", 0x24},
    {"READ DMA EXT", 0x25},
    {"READ NATIVE MAX ADDRESS EXT", 0x27},
    {"READ MULTIPLE EXT", 0x29},
    {"READ LOG EXT", 0x2F},
    {"WRITE SECTOR(S)", 0x30},
    {"WRITE SECTOR(S) EXT", 0x34},
    {"WRITE DMA EXT", 0x35},
    {"WRITE MULTIPLE EXT", 0x39},
    {"WRITE DMA FUA EXT", 0x3D},
    {"WRITE LOG EXT", 0x3F},
    {"READ VERIFY SECTOR(S)", 0x40},
    {"READ VERIFY SECTOR(S) EXT", 0x42},
    {"WRITE UNCORRECTABLE EXT", 0x45},
    {"READ LOG DMA EXT", 0x47},
    {"WRITE LOG DMA EXT", 0x57},
    {"READ FPDMA QUEUED", READ_FPDMA_QUEUED},
    {"WRITE FPDMA QUEUED", WRITE_FPDMA_QUEUED},
    {"EXECUTE DEVICE DIAGNOSTIC", 0x90},
    {"SMART", 0xB0},
    {"READ MULTIPLE", 0xC4},
    {"WRITE MULTIPLE", 0xC5},
    {"SET MULTIPLE MODE", 0xC6},
    {"READ DMA", 0xC8},
    {"WRITE DMA", 0xCA},
    {"WRITE MULTIPLE FUA EXT", 0xCE},
    {"STANDBY IMMEDIATE", 0xE0},
    {"IDLE IMMEDIATE", 0xE1},
    {"STANDBY", 0xE2},
    {"IDLE", 0xE3},
    {"READ BUFFER", 0xE4},
    {"CHECK POWER MODE", 0xE5},
    {"SLEEP", 0xE6},
    {"FLUSH CACHE", 0xE7},
    {"WRITE BUFFER", 0xE8},
    {"READ BUFFER DMA", 0xE9},
    {"FLUSH CACHE EXT", 0xEA},
    {"WRITE BUFFER DMA", 0xEB},
    {"IDENTIFY DEVICE", 0xEC},
    {"SET FEATURES", 0xEF},
};

#define COMMANDS (sizeof commands / sizeof *commands)

/* How many words a name has if some words begin with it; else 0. */
static unsigned words_of(const char *name, char *const *words) {
    for (unsigned count = 0;; count++) {
        const char *end = strchr(name, ' ');
        size_t length = end ? (size_t)(end - name) : strlen(name);
        if (!words[count] || strlen(words[count]) != length || strncmp(words[count], name, length))
            return 0;
        if (!end)
            return count + 1;
        name = end + 1;
    }
}

unsigned command_named(char *const *words, uint8_t *code) {
    unsigned longest = 0;
    for (size_t at = 0; at < COMMANDS; at++) {
        unsigned count = words_of(commands[at].name, words);
        if (count <= longest)
            continue;
        longest = count;
        *code = commands[at].code;
    }
    return longest;
}

const char *command_name(uint8_t code) {
    for (size_t at = 0; at < COMMANDS; at++)
        if (commands[at].code == code)
            return commands[at].name;
    return NULL;
}

/* Those of the controller come at 0, and those of its port at 100h, four bytes each. */
static const char *const common[] = {"CAP", "GHC", "IS", "PI", "VS", "CCC_CTL", "CCC_PTS", "EM_LOC", "EM_CTL", "CAP2", "BOHC"};
static const char *const port[] = {"PxCLB", "PxCLBU", "PxFB",   "PxFBU",  "PxIS",   "PxIE",   "PxCMD", NULL,
                                   "PxTFD", "PxSIG",  "PxSSTS", "PxSCTL", "PxSERR", "PxSACT", "PxCI",  "PxSNTF"};

#define PORT 0x100u
#define IN_COMMON (sizeof common / sizeof *common)
#define IN_PORT (sizeof port / sizeof *port)

const char *register_name(uint32_t offset) {
    if (offset % 4)
        return NULL;
    if (offset < PORT)
        return offset / 4 < IN_COMMON ? common[offset / 4] : NULL;
    return (offset - PORT) / 4 < IN_PORT ? port[(offset - PORT) / 4] : NULL;
}

int register_named(const char *name) {
    for (uint32_t offset = 0; offset < PORT + 4 * IN_PORT; offset += 4) {
        const char *it = register_name(offset);
        if (it && !strcmp(it, name))
            return (int)offset;
    }
    return -1;
}
