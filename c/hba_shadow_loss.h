/* What a sector may hold after a loss of power, as the shadow reads ACS-3 ("Volatile write cache", FLUSH CACHE): what it had when the last flush was carried out, or the
   bytes of a write that was completed since or is outstanding, or zeros if it was trimmed since. hba_shadow_commands.h names the journal's entries one after the other. */
#include "hba_shadow_registers.h"

#define CHANCES 4096u

static uint8_t beginning[SECTORS * AHCI_SECTOR_BYTES], durable[SECTORS * AHCI_SECTOR_BYTES];
static struct { uint8_t sector, bytes[AHCI_SECTOR_BYTES]; } chances[CHANCES]; /* what completed writes had for a sector */
static uint32_t chance_count;
static bool has_all; /* there was room for all of them */
static bool may_be_zeros[SECTORS]; /* a TRIM has made them zeros since */
static const uint8_t zeros[AHCI_SECTOR_BYTES];
static struct { bool on; uint64_t lba; uint32_t sectors; uint8_t bytes[SECTORS * AHCI_SECTOR_BYTES]; } going[32]; /* outstanding writes, by tag */

static void loss_flushes(void)
{
    memcpy(durable, image, sizeof image);
    memset(may_be_zeros, 0, sizeof may_be_zeros);
    chance_count = 0;
    has_all = true;
}

/* A journal begins. */
static void loss_begins(void)
{
    memcpy(beginning, image, sizeof image);
    memset(going, 0, sizeof going);
    loss_flushes();
}

static void loss_issues(uint32_t tag, bool is_write, uint64_t lba, uint32_t sectors, const uint8_t *bytes)
{
    going[tag].on = is_write && lba < has && sectors <= has - lba;
    going[tag].lba = lba;
    going[tag].sectors = sectors;
    if (going[tag].on)
        memcpy(going[tag].bytes, bytes, (size_t)sectors * AHCI_SECTOR_BYTES);
}

static void take_chance(uint64_t sector, const uint8_t *bytes)
{
    has_all = has_all && chance_count < CHANCES;
    if (has_all) {
        chances[chance_count].sector = (uint8_t)sector;
        memcpy(chances[chance_count++].bytes, bytes, AHCI_SECTOR_BYTES);
    }
}

static void loss_completes(uint32_t tag)
{
    for (uint32_t at = 0; going[tag].on && at < going[tag].sectors; at++)
        take_chance(going[tag].lba + at, going[tag].bytes + (size_t)at * AHCI_SECTOR_BYTES);
    going[tag].on = false;
}

static void loss_zeroes(uint64_t lba, uint32_t sectors) { memset(may_be_zeros + lba, true, sectors); }

static bool may_be_left(uint32_t sector, const uint8_t *bytes)
{
    bool may = memcmp(bytes, durable + sector * AHCI_SECTOR_BYTES, AHCI_SECTOR_BYTES) == 0 || (may_be_zeros[sector] && memcmp(bytes, zeros, sizeof zeros) == 0);
    for (uint32_t at = 0; at < chance_count; at++)
        may = may || (chances[at].sector == sector && memcmp(bytes, chances[at].bytes, AHCI_SECTOR_BYTES) == 0);
    for (uint32_t tag = 0; tag < 32; tag++)
        if (going[tag].on && sector >= going[tag].lba && sector < going[tag].lba + going[tag].sectors)
            may = may || memcmp(bytes, going[tag].bytes + (sector - going[tag].lba) * AHCI_SECTOR_BYTES, AHCI_SECTOR_BYTES) == 0;
    return may;
}
