/* What SET FEATURES, SET MULTIPLE MODE and SMART do in the disk of the shadow (ACS-3, by the titles of subcommands). */
#include "hba_shadow_commands.h"

/* A transfer mode of SET FEATURES that the page of IDENTIFY DEVICE has: PIO default, PIO 0 to 4; multiword DMA 0 to 2, Ultra DMA 0 to 5, of which one is selected. */
static bool sets_mode(uint8_t mode)
{
    const bool is_dma = (mode >= 0x20 && mode <= 0x22) || (mode >= 0x40 && mode <= 0x45);
    disk.mode = is_dma ? mode : disk.mode;
    return is_dma || mode < 2 || (mode >= 0x08 && mode <= 0x0C);
}

/* SET MULTIPLE MODE: a power of two up to 16 sectors, or none, and then READ and WRITE MULTIPLE are disabled. */
static bool sets_blocks(const struct command *it)
{
    const uint8_t count = it->fis[12];
    const bool is_good = count <= 16 && (count & (count - 1)) == 0;
    disk.per_block = is_good ? count : disk.per_block;
    return is_good;
}

/* SET FEATURES: whether the subcommand is carried out. Without a volatile write cache there is none to enable or disable. */
static bool sets_feature(const struct command *it)
{
    const uint8_t count = it->fis[12];
    switch (it->fis[3]) {
    case 0x02: case 0x82: disk.cache = disk.has_cache && it->fis[3] == 0x02; return disk.has_cache;
    case 0x03: return sets_mode(count);
    case 0x05: disk.level = count && count != 0xFF ? count : disk.level; return count && count != 0xFF;
    case 0x85: disk.level = 0; return true;
    case 0x55: case 0xAA: disk.ahead = it->fis[3] == 0xAA; return true;
    case 0x66: case 0xCC: disk.reverts = it->fis[3] == 0xCC; return true;
    default: return false;
    }
}

/* A self-test has passed: its number is in the next of 21 entries of log 06h, and of 19 of log 07h. */
static void tests(uint8_t number)
{
    disk.tests[508] = (uint8_t)(disk.tests[508] % 21 + 1);
    disk.tests[2 + 24 * (disk.tests[508] - 1)] = number;
    disk.more_tests[2] = (uint8_t)(disk.more_tests[2] % 19 + 1);
    disk.more_tests[4 + 26 * (disk.more_tests[2] - 1)] = number;
}

/* SMART without data: whether the subcommand is carried out. While it is disabled only SMART ENABLE OPERATIONS is. */
static bool is_smart(const struct command *it)
{
    const uint8_t count = it->fis[12], low = it->fis[4];
    if (it->fis[5] != 0x4F || it->fis[6] != 0xC2 || (!disk.smart && it->fis[3] != 0xD8))
        return false;
    switch (it->fis[3]) {
    case 0xD2: return count == 0 || count == 0xF1;
    case 0xD4:
        if (low == 1 || low == 2 || low == 0x81 || low == 0x82)
            tests(low);
        return low <= 2 || low == 0x7F || low == 0x81 || low == 0x82;
    case 0xD8: case 0xD9: disk.smart = it->fis[3] == 0xD8; return true;
    case 0xDA: return true;
    default: return false;
    }
}
