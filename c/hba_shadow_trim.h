/* DATA SET MANAGEMENT with TRIM in the disk of the shadow (ACS-3, "DATA SET MANAGEMENT", "TRIM" and "LBA Range Entry"): the sectors that a command names, and those that
   become zeros. */
#include "hba_shadow_settings.h"

#define RANGE_BYTES 8u /* of an LBA Range Entry */
#define RANGES_OF_BLOCK (AHCI_PAGE_BYTES / RANGE_BYTES)

static const struct range no_range;

static bool is_trim(const struct command *it) { return it->kind == STORE && it->fis[2] == 0x06; }
static uint32_t entries_of(const struct command *it) { return it->pages * RANGES_OF_BLOCK; }

/* An LBA Range Entry: the LBA in bits 47:0, and in bits 63:48 how many sectors. */
static struct range range_of(const struct command *it, uint32_t entry)
{
    const uint8_t *at = it->bytes + RANGE_BYTES * entry;
    return (struct range){ little(at, 6), (uint32_t)little(at + 6, 2) };
}

/* Whether an entry names a sector that is not on the disk, for which the command is aborted: IDNF is of a command that is not (ACS-3, "ID NOT FOUND bit"). An entry with no
   sectors names none, whatever its LBA is. */
static bool leaves_disk(const struct command *it)
{
    for (uint32_t entry = 0; entry < entries_of(it); entry++) {
        const struct range range = range_of(it, entry);
        if (range.sectors && range.lba + range.sectors > has)
            return true;
    }
    return false;
}

/* The entry that comes next of those that name sectors; entries_of(it) if there is none. */
static uint32_t next_entry(const struct command *it)
{
    uint32_t entry = it->entry;
    while (entry < entries_of(it) && !range_of(it, entry).sectors)
        entry++;
    return entry;
}

/* The sectors that become zeros next: none of a command that is no TRIM, that only advises, or that fails, nor once all entries are done. */
static struct range next_range(const struct command *it)
{
    if (!disk.trim_zeros || !is_trim(it) || leaves_disk(it) || next_entry(it) == entries_of(it))
        return no_range;
    return range_of(it, next_entry(it));
}

/* Whether an entry that is done has one of these sectors too. */
static bool overlaps(const struct command *it, struct range range)
{
    for (uint32_t entry = 0; entry < it->entry; entry++) {
        const struct range other = range_of(it, entry);
        if (other.sectors && other.lba < range.lba + range.sectors && range.lba < other.lba + other.sectors)
            return true;
    }
    return false;
}

/* A step makes sectors zeros, and follow_zeros does so in the image. They can be read again, and the medium was needed. */
static void makes_zeros(struct command *it, struct range range)
{
    const uint32_t entry = next_entry(it);
    counted.zeroed++;
    counted.overlapped += overlaps(it, range);
    counted.far += entry >= RANGES_OF_BLOCK;
    counted.woken += power == STANDBY;
    zeroed = range;
    turns_sectors(range.lba, range.lba + range.sectors, false);
    power = ACTIVE;
    it->entry = entry + 1;
    it->ranges++;
}

/* A TRIM ends by itself: how its FIS is counted. */
static void counts_trim(const struct command *it, bool is_bad)
{
    counted.outside += is_bad;
    counted.advised += !is_bad && !disk.trim_zeros;
    counted.several += it->ranges > 1;
}
