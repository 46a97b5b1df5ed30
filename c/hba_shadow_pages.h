/* What the disk of the shadow reads and writes that is no sector: the page of IDENTIFY DEVICE, logs, pages of SMART and the buffer (docs/LAYOUTS.md). */
#include "hba_shadow_loss.h"

/* The first page that is read of a log, and whether the log has all pages that are read. */
static uint64_t first_page(uint64_t lba) { return (lba >> 8 & 0xFF) | (lba >> 32 & 0xFF) << 8; }

/* Logs 80h to 9Fh are the host's. */
static bool is_host_log(uint64_t log) { return log >= 0x80 && log <= 0x9F; }

static uint32_t pages_of(uint64_t log)
{
    return is_host_log(log) ? 16 : log == 0 || log == 3 || log == 7 || log == 0x10 || log == 0x11 ? 1 : log == 4 ? 2 : log == 0x30 ? 7 : 0;
}

static bool reads_log(uint32_t code, uint64_t lba, uint32_t count)
{
    return (code == 0x2F || code == 0x47) && count && first_page(lba) + count <= pages_of(lba & 0xFF);
}

/* WRITE LOG EXT and WRITE LOG DMA EXT: the host may write to its own logs alone. */
static bool writes_log(uint32_t code, uint64_t lba, uint32_t count)
{
    return (code == 0x3F || code == 0x57) && is_host_log(lba & 0xFF) && count && first_page(lba) + count <= 16;
}

static bool has_smart_key(const uint8_t *fis) { return fis[2] == 0xB0 && fis[5] == 0x4F && fis[6] == 0xC2; }

/* SMART READ LOG and SMART WRITE LOG of a log of the host's: so many pages of it, the first ones. */
static bool names_host_log(const uint8_t *fis) { return has_smart_key(fis) && is_host_log(fis[4]) && fis[12] && fis[12] <= 16; }

/* A page of SMART: READ DATA, READ THRESHOLDS, and READ LOG of the directory, of the errors and of the self-tests, a page each (ACS-3, SMART). */
static bool reads_smart(const uint8_t *fis)
{
    const bool is_log = fis[4] == 0 || fis[4] == 1 || fis[4] == 6;
    return has_smart_key(fis) && (fis[3] == 0xD0 || fis[3] == 0xD1 || (fis[3] == 0xD5 && ((fis[12] == 1 && is_log) || names_host_log(fis))));
}

/* A page of a log of the host's that a command reads or writes. */
static uint8_t *host_page(const struct command *it, uint32_t index)
{
    const uint64_t lba = little(it->fis + 4, 3) | little(it->fis + 8, 3) << 24;
    return disk.logs[it->fis[4] - 0x80][(it->fis[2] == 0xB0 ? 0 : first_page(lba)) + index];
}

/* All pages are written at once, once all data have come. */
static void writes_pages(const struct command *it)
{
    counted.logged++;
    for (uint32_t i = 0; i < it->pages; i++)
        memcpy(host_page(it, i), it->bytes + i * AHCI_PAGE_BYTES, AHCI_PAGE_BYTES);
}

static void reads_pages(struct command *it)
{
    for (uint32_t i = 0; i < it->pages; i++) {
        memcpy(it->bytes + i * AHCI_PAGE_BYTES, host_page(it, i), AHCI_PAGE_BYTES);
        counted.reread += memcmp(host_page(it, i), zeros, AHCI_PAGE_BYTES) != 0;
    }
}

static bool is_buffer(uint32_t code) { return code == 0xE4 || code == 0xE9; }

/* Byte 511 makes the sum of a page 0. */
static void sums(uint8_t *to)
{
    uint32_t sum = 0;
    for (uint32_t at = 0; at < AHCI_PAGE_BYTES - 1; at++)
        sum += to[at];
    to[AHCI_PAGE_BYTES - 1] = (uint8_t)-sum;
}

/* The world wide name: NAA 3, and 60 bits of serial number and model number, as a number in base 257 (docs/LAYOUTS.md). The first character of a word is its high byte. */
static uint64_t wide_name(const uint8_t *words)
{
    uint64_t name = 0;
    for (uint32_t at = 20; at < 94; at = at == 39 ? 54 : at + 1)
        name = 257 * name + words[at ^ 1];
    return (uint64_t)3 << 60 | name << 4 >> 4;
}

/* A bit of the mode that is selected, of modes that SET FEATURES counts from one on (ACS-3, words 63 and 88). */
static uint8_t selected(uint8_t from, uint8_t to) { return disk.mode >= from && disk.mode <= to ? (uint8_t)(1 << (disk.mode - from)) : 0; }

/* The page of IDENTIFY DEVICE: with words 47 to 50, 59, 63, 69, 76, 82 to 88, 91, 105, 108 to 111, 119, 120 and 169 as the commands and logs are, and as SET FEATURES, SET
   MULTIPLE MODE and SMART have them. */
static void lays_identify(uint8_t *to)
{
    static const uint8_t words[][3] = { { 47, 16, 0x80 }, { 48, 0, 0x40 }, { 49, 0, 0x0F }, { 50, 0, 0x40 },
        { 53, 6, 0 }, { 63, 7, 0 }, { 64, 3, 0 }, { 65, 120, 0 }, { 66, 120, 0 }, { 67, 120, 0 }, { 68, 120, 0 }, { 69, 0, 0x0C },
        { 76, 0x0E, 0x85 }, { 82, 0x49, 0x30 }, { 83, 8, 0x74 }, { 84, 0x63, 0x41 }, { 85, 8, 0x30 }, { 86, 0, 0xB4 }, { 87, 0x63, 0x41 }, { 88, 0x3F, 0 },
        { 105, 8, 0 }, { 119, 12, 0x40 }, { 120, 12, 0x40 }, { 169, 1, 0 } };
    CHECK(ahci_identify_page(has, depth, to, AHCI_PAGE_BYTES) == AHCI_OK);
    for (uint32_t at = 0; at < 20; at++)
        to[20 + (at ^ 1)] = (uint8_t)serial[at];
    for (size_t i = 0; i < sizeof words / sizeof *words; i++)
        memcpy(to + 2 * words[i][0], words[i] + 1, 2);
    to[2 * 69] |= disk.trim_zeros ? 0x20 : 0; /* RZAT, and DRAT, which has to be with it */
    to[2 * 69 + 1] |= disk.trim_zeros ? 0x40 : 0;
    to[2 * 82] |= disk.has_cache ? 0x20 : 0;
    to[2 * 85] |= (uint8_t)((disk.smart ? 1 : 0) | (disk.cache ? 0x20 : 0) | (disk.ahead ? 0x40 : 0));
    to[2 * 86] |= disk.level ? 8 : 0;
    to[2 * 91] = disk.level;
    put(to + 2 * 59, disk.per_block ? 0x100u + disk.per_block : 0, 2);
    to[2 * 63 + 1] = selected(0x20, 0x22);
    to[2 * 88 + 1] = selected(0x40, 0x45);
    for (uint32_t i = 0; i < 4; i++)
        put(to + 2 * (108 + i), wide_name(to) >> 16 * (3 - i), 2);
}

/* The supported capabilities and the current settings of log 30h, of which bit 63 says that they are valid. The capabilities are the bits of words 119, 84, 83, 82 and 69 in turn:
   RZAT and DRAT, bits 5 and 14 of word 69, are bits 31 and 39. */
static uint64_t capabilities_bits(void)
{
    static const uint8_t bits[] = { 1, 2, 7, 8, 11, 12, 16, 20, 22, 23, 25, 27, 28, 35, 36, 63 };
    uint64_t all = (disk.has_cache ? 1u << 24 : 0) | (disk.trim_zeros ? (uint64_t)1 << 31 | (uint64_t)1 << 39 : 0);
    for (size_t i = 0; i < sizeof bits; i++)
        all |= (uint64_t)1 << bits[i];
    return all;
}

static uint64_t settings_bits(void)
{
    return (uint64_t)1 << 63 | (disk.level ? 1u << 4 : 0) | (disk.smart ? 1u << 8 : 0) | (disk.ahead ? 1u << 9 : 0) | (disk.reverts ? 1u << 13 : 0) | (disk.cache ? 1u << 15 : 0);
}

/* The pages of log 30h behind the first two, without their headers. */
static void lays_identify_fields(uint8_t *to, uint64_t number, const uint8_t *words)
{
    const uint64_t valid = (uint64_t)1 << 63;
    switch (number) {
    case 2: put(to + 8, valid | has, 8), put(to + 16, valid, 8); break;
    case 3:
        put(to + 8, capabilities_bits(), 8);
        put(to + 24, valid, 8); /* the rotation rate is not told */
        put(to + 56, wide_name(words), 8), put(to + 64, valid, 8);
        put(to + 72, valid | 1, 8); /* TRIM */
        break;
    case 4: put(to + 8, settings_bits(), 8), put(to + 16, valid | (uint64_t)disk.level << 8, 8); break;
    case 5: memcpy(to + 8, words + 20, 20), memcpy(to + 32, words + 46, 8), memcpy(to + 48, words + 54, 40); break;
    default: put(to + 16, valid, 8), put(to + 40, valid, 8), put(to + 48, valid, 8); break; /* neither Security nor Trusted Computing nor Sanitize Device */
    }
}

/* A page of log 30h (ACS-3, "IDENTIFY DEVICE data log"): the list of pages 00h to 06h, the page of IDENTIFY DEVICE, or another of those. */
static void lays_identify_log(uint8_t *to, uint64_t number)
{
    uint8_t words[AHCI_PAGE_BYTES];
    lays_identify(words);
    if (number == 1) {
        memcpy(to, words, sizeof words);
    } else if (number == 0) {
        to[0] = 1, to[8] = 7;
        for (uint8_t i = 1; i < 7; i++)
            to[9 + i] = i;
    } else {
        to[0] = 1, to[2] = (uint8_t)number, to[7] = 0x80;
        lays_identify_fields(to, number, words);
    }
}

/* A page of log 04h (ACS-3, "Device Statistics log"): the two pages that there are, or the general one, of which the power-on hours are supported and valid. */
static void lays_statistics(uint8_t *to, uint64_t number)
{
    to[0] = 1;
    to[number ? 2 : 10] = 1;
    to[number ? 23 : 8] = number ? 0xC0 : 2;
}

/* The directory of READ LOG EXT, or that of SMART READ LOG. */
static void lays_directory(uint8_t *to, bool is_smart)
{
    static const uint8_t all[] = { 3, 4, 7, 0x10, 0x11, 0x30 }, own[] = { 1, 6 };
    to[0] = 1;
    for (size_t i = 0; i < (is_smart ? sizeof own : sizeof all); i++)
        to[2 * (is_smart ? own[i] : all[i])] = (uint8_t)(is_smart ? 1 : pages_of(all[i]));
    for (uint32_t log = 0x80; log < 0xA0; log++)
        to[2 * log] = 16;
}

/* A page of SMART, or of a log of one page that has a checksum. */
static void lays_checked(uint8_t *to, const struct command *it)
{
    const uint32_t log = it->fis[2] == 0xB0 ? (it->fis[3] == 0xD5 ? it->fis[4] : it->fis[3]) : 0x100 | it->fis[4];
    to[0] = log != 0x111;
    if (log == 0xD0) /* off-line data are collected; self-tests, saved data and a log of errors; a test takes a minute at most */
        to[362] = 2, to[367] = 0x11, to[368] = 3, to[370] = to[372] = to[373] = 1;
    if (log == 0x111) { /* counters 001h and 00Ah, of a word each; features 0 resets them once they are read */
        to[4] = 1, to[8] = 0x0A, to[5] = to[9] = 0x10;
        put(to + 6, icrc_ends, 2);
        put(to + 10, signatures, 2);
        if (it->fis[3] & 1)
            icrc_ends = signatures = 0;
    }
    if (log == 6 || log == 0x107)
        memcpy(to, log == 6 ? disk.tests : disk.more_tests, AHCI_PAGE_BYTES);
    sums(to);
}

/* What a command reads that is no sector, as it is carried out: IDENTIFY DEVICE, a log while no queued command has failed, a page of SMART, or the buffer. */
static void lays_pages(struct command *it)
{
    const uint64_t lba = little(it->fis + 4, 3) | little(it->fis + 8, 3) << 24;
    const bool is_log = it->fis[2] == 0x2F || it->fis[2] == 0x47;
    memset(it->bytes, 0, it->pages * AHCI_PAGE_BYTES);
    if (it->fis[2] == 0xEC) {
        lays_identify(it->bytes);
    } else if (it->host_log) {
        reads_pages(it);
    } else if (it->long_log) {
        for (uint32_t i = 0; i < it->pages; i++)
            ((lba & 0xFF) == 4 ? lays_statistics : lays_identify_log)(it->bytes + i * AHCI_PAGE_BYTES, first_page(lba) + i);
    } else if (it->error_log) { /* NQ, and status and error of the command that was not queued */
        it->bytes[0] = 0x80;
        if (mixed)
            it->bytes[2] = 0x41, it->bytes[3] = mixed_error;
        mixed = false;
        sums(it->bytes);
    } else if (is_buffer(it->fis[2])) {
        memcpy(it->bytes, disk.buffer, AHCI_PAGE_BYTES);
    } else if (is_log ? it->fis[4] == 0 : it->fis[3] == 0xD5 && it->fis[4] == 0) {
        lays_directory(it->bytes, !is_log);
    } else {
        lays_checked(it->bytes, it);
    }
}
