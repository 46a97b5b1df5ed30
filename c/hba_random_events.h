/* What happens to the disk, its link and its power in a random run. */
#include "hba_random_driver.h"

/* ---- a loss of power ---- */

/* What a sector has, what it had, what some write has for it, or zeros. */
static const uint8_t *bytes_for(uint32_t sector, uint32_t pick, uint32_t tag)
{
    const size_t at = sector * AHCI_SECTOR_BYTES;
    const bool goes = going[tag].on && sector >= going[tag].lba && sector < going[tag].lba + going[tag].sectors;
    if (pick % 16 == 7)
        return zeros;
    if (pick % 4 < 2)
        return (pick % 4 ? beginning : image) + at;
    if (pick % 4 == 2 && chance_count)
        return chances[pick / 4 % chance_count].bytes;
    return goes ? going[tag].bytes + at - going[tag].lba * AHCI_SECTOR_BYTES : durable + at;
}

/* What a sector may hold then: one of these, or something else. */
static void lose_power(void)
{
    const uint32_t sector = byte() % has, pick = byte(), tag = byte() % 32;
    const uint64_t at = (uint64_t)sector * AHCI_SECTOR_BYTES;
    uint8_t bytes[AHCI_SECTOR_BYTES];
    uint32_t may = 77;
    memcpy(bytes, bytes_for(sector, pick, tag), sizeof bytes);
    bytes[pick] ^= pick % 16 == 15;
    CHECK(ahci_hba_may_be_left(&hba, beginning + at, AHCI_SECTOR_BYTES, has, bytes, sizeof bytes, &may) == AHCI_NO_SUCH_SECTOR && may == 77);
    CHECK(ahci_hba_may_be_left(&hba, beginning + at, 511, sector, bytes, sizeof bytes, &may) == AHCI_WRONG_LENGTH && may == 77);
    CHECK(ahci_hba_may_be_left(&hba, beginning + at, AHCI_SECTOR_BYTES, sector, bytes, 513, &may) == AHCI_WRONG_LENGTH && may == 77);
    CHECK(ahci_hba_may_be_left(&hba, beginning + at, AHCI_SECTOR_BYTES, sector, bytes, sizeof bytes, &may) == AHCI_OK && may <= 1);
    CHECK(!has_all || may == may_be_left(sector, bytes));
    counted.left += may;
    counted.lost_bytes += !may;
}

/* ---- events ---- */

/* From now on, a TRIM makes its sectors zeros, as it mostly does, or only advises. */
static void set_trim(void)
{
    const uint32_t supported = byte() % 8 ? 1 + byte() : 0;
    CHECK(ahci_hba_trim_zeros(&hba, supported) == AHCI_OK);
    disk.trim_zeros = supported != 0;
}

/* PhyRdy is lost, or the disk is pulled out: a queue with requests hands its journal out. */
static void lose(bool pulls)
{
    uint64_t entries = 77;
    const bool busy = reg.link == UP && is_busy();
    CHECK((pulls ? ahci_hba_unplug(&hba, &entries) : ahci_hba_lose_link(&hba, &entries)) == AHCI_OK && (entries != 0) == busy);
    if (pulls)
        is_pulled();
    else
        loses_link();
    follow(entries);
}

static void lose_link(void) { lose(false); }
static void unplug(void) { lose(true); }

/* COMINIT, here and below not while the link is up: the shadow sets DIAG.X then, since any COMINIT does (section 3.3.12), and the library changes nothing. */
static void find_link(void)
{
    if (reg.link == UP)
        return;
    CHECK(ahci_hba_find_link(&hba) == AHCI_OK);
    finds_link();
    follow(0);
}

static void plug(void)
{
    if (reg.link == UP)
        return;
    CHECK(ahci_hba_plug(&hba) == AHCI_OK);
    is_plugged();
    follow(0);
}

/* Another disk, whose sectors are those of a base and then zeros: it comes only where one was pulled out, and for one that can't be made nothing changes. */
static void exchange(void)
{
    static uint8_t bases[2][SECTORS * AHCI_SECTOR_BYTES]; /* the base of the disk that is there is not touched */
    static uint32_t turn;
    const uint8_t pick = byte();
    const uint32_t sectors = 1 + byte() % SECTORS, given = byte() % (sectors + 1), takes = 1 + byte() % 32;
    const bool caches = byte() % 2;
    uint8_t *base = bases[turn];
    uint64_t entries = 77;
    ahci_state before;
    ahci_identity name = { .rotation = pick % 2 };
    snprintf((char *)name.serial, sizeof name.serial, "%-19u", 2u + pick);
    name.serial[19] = ' ';
    memcpy(name.firmware, "1.0     ", sizeof name.firmware);
    memcpy(name.model, "SOFTWARE NCQ DISK                       ", sizeof name.model);
    for (uint32_t at = 0; at < SECTORS * AHCI_SECTOR_BYTES; at++)
        base[at] = (uint8_t)(pick + at + 3 * (at / AHCI_SECTOR_BYTES));
    CHECK(ahci_hba_port(&hba, &before) == AHCI_OK);
    CHECK(ahci_hba_plug_other(&hba, base, given * AHCI_SECTOR_BYTES, 0, takes, &name, &entries) == (pulled ? AHCI_BAD_SIZE : AHCI_NOT_READY));
    CHECK(ahci_hba_plug_other(&hba, base, given * AHCI_SECTOR_BYTES, sectors, pick % 2 ? 0 : 33, &name, &entries) == (pulled ? AHCI_BAD_DEPTH : AHCI_NOT_READY));
    name.serial[0] = '\n';
    CHECK(ahci_hba_plug_other(&hba, base, given * AHCI_SECTOR_BYTES, sectors, takes, &name, &entries) == (pulled ? AHCI_BAD_KIND : AHCI_NOT_READY) && entries == 77);
    snprintf((char *)name.serial, sizeof name.serial, "%-19u", 2u + pick);
    name.rotation = 0;
    name.serial[19] = ' ';
    compare_image();
    if (!pulled) {
        CHECK(ahci_hba_plug_other(&hba, base, given * AHCI_SECTOR_BYTES, sectors, takes, &name, &entries) == AHCI_NOT_READY && entries == 77);
        return;
    }
    CHECK(ahci_hba_write_cache(&hba, caches) == AHCI_OK);
    disk.has_cache = caches;
    CHECK(ahci_hba_plug_other(&hba, base, given * AHCI_SECTOR_BYTES, sectors, takes, &name, &entries) == AHCI_OK && entries == before.next - before.first);
    turn = 1 - turn;
    memset(bases[turn], 0xEE, sizeof bases[turn]); /* the base of the disk that was pulled out is the caller's again */
    memset(image, 0, sizeof image);
    memcpy(image, base, (size_t)given * AHCI_SECTOR_BYTES);
    depth = takes;
    char text[21];
    snprintf(text, sizeof text, "%-20u", 2u + pick);
    is_exchanged(text, sectors);
    follow(entries);
    compare_image();
}

/* An error of the interface, or one that it doesn't have: DIAG.D is not AHCI's, and the other bits are no such errors. */
static void fail_interface(void)
{
    const uint8_t pick = byte();
    const uint32_t error = pick % 8 == 7 ? word() : 18u + pick % 8, is_fatal = pick >> 3 & 3;
    const bool is_one = error == 19 || (error >= 21 && error <= 24);
    CHECK(ahci_hba_fail_interface(&hba, error, is_fatal) == (is_one ? AHCI_OK : AHCI_BAD_KIND));
    if (is_one)
        meets_error(error, is_fatal != 0);
    follow(0);
}

/* One of them, one time of four, so that runs get on. */
static void event(void)
{
    static void (*const events[])(void) = { lose_link, find_link, unplug, plug, exchange, fail_interface, set_trim };
    if (byte() % 4 == 0)
        events[byte() % (sizeof events / sizeof *events)]();
}

static bool is_lost(void) { return pulled || (reg.link == LISTENS && reg.sud); }

/* What a driver has to bring a link up, each of which does nothing for a disk that is pulled out: PxSCTL.DET, PxCMD.SUD and GHC.HR. */
static void try_link(void)
{
    const uint8_t pick = byte();
    counted.tries += pulled;
    switch (pick % 8) {
    case 0: write(AHCI_REG_GHC, 0x80000001); break;
    case 1: write(AHCI_REG_PXSCTL, 0x301); break;
    case 2: write(AHCI_REG_PXSCTL, 0x304); break;
    case 3: write(AHCI_REG_PXCMD, driven(AHCI_REG_PXCMD) & ~(uint32_t)AHCI_PXCMD_SUD); break;
    case 4: write(AHCI_REG_PXCMD, driven(AHCI_REG_PXCMD) | AHCI_PXCMD_SUD); break;
    case 5: find_link(); break;
    default: write(AHCI_REG_PXSCTL, 0x300); break;
    }
    compare();
}

/* A link that is lost comes back before long: the disk is plugged in, or sends COMINIT, or the driver resets the link. */
static void get_back(void)
{
    const uint8_t pick = byte();
    if (pick % 8 > 1)
        return;
    if (pulled && byte() % 2) {
        exchange();
    } else if (pulled) {
        plug();
    } else if (pick % 8) {
        find_link();
    } else {
        write(AHCI_REG_PXSCTL, 0x301);
        compare();
        write(AHCI_REG_PXSCTL, 0x300);
    }
    compare();
}
