/* What the driver does in a random run: commands with their lists and data, the start and restart of the port, resets, and reads and writes of any register. */
#include "hba_random_device.h"

/* Data of the driver: below HIGH or above it. */
static uint64_t somewhere(void)
{
    const uint8_t pick = byte();
    return (pick & 1 ? HIGH + 0x2000 : LOW + 0x4000) + 16 * (pick & 0xFE);
}

/* The driver's command tables, and how many entries of a list one has room for. */
enum { TABLE_BYTES = 0x800, MOST_LAID = (TABLE_BYTES - 0x80) / 16 };

/* What a list is like: most have one entry of all the bytes, and the others may be too short too. */
enum shape { WHOLE, FEW, MANY, SHORT, LONGER, NOWHERE, WILD, NONE, ANY_LENGTH, FEW_SHORT, MANY_SHORT, MORE };

/* The PRDT of a command that moves so many bytes; how many entries it has. */
static uint32_t lay_list(uint8_t *to, uint32_t moved)
{
    const uint32_t pick = byte() % 48;
    const enum shape shape = pick <= MORE ? (enum shape)pick : WHOLE;
    const bool is_few = shape == FEW || shape == FEW_SHORT, is_many = shape == MANY || shape == MANY_SHORT, is_short = shape == SHORT || shape == FEW_SHORT || shape == MANY_SHORT;
    const uint32_t pieces = is_few ? 2 + byte() % 4 : is_many ? 110 : 1;
    const uint32_t needed = is_short ? (moved * byte() / 256) & ~1u : shape == LONGER ? moved + 2 + byte() % 64 * 2u : moved;
    uint32_t count = 0, laid = 0;
    while ((laid < needed || count == 0) && count < pieces) {
        const uint32_t rest = needed > laid ? needed - laid : 2, part = count + 1 == pieces ? rest : 2 * (1 + byte() % (is_many ? 40u : 200u));
        const uint32_t size = part < rest ? part : rest;
        put(to + 16 * count, shape == NOWHERE && count + 1 == pieces ? 0x20000u + 2u * byte() : somewhere() + byte() % 2, 8);
        put(to + 16 * count + 8, 0, 4);
        put(to + 16 * count++ + 12, ((size - 1) & 0x3FFFFF) | (byte() % 4 ? 0 : 0x80000000), 4);
        laid += size;
    }
    if (shape == WILD)
        for (uint32_t i = 0; i < 16 * count; i += 4)
            put(to + i, word(), 4);
    if (shape == LONGER) {
        put(to + 16 * count, 0xFFFFFFFFFFFF0000, 8);
        put(to + 16 * count++ + 12, word(), 4);
    }
    return shape == NONE ? 0 : shape == ANY_LENGTH && byte() % 4 == 0 ? word() & 0xFFFF : shape == MORE ? count + byte() % 64 : count;
}

/* Mostly one of the host's logs. */
static uint8_t of_host(uint8_t pick)
{
    static const uint8_t logs[] = { 0x80, 0x81, 0x80, 0x81, 0x80, 0x9F, 0x7F, 0xA0 };
    return logs[pick % 32 == 6 ? 6 + pick / 128 : pick % 6];
}

/* The fields of SET FEATURES, SET MULTIPLE MODE, SMART, WRITE UNCORRECTABLE EXT and DATA SET MANAGEMENT: mostly those of a subcommand that there is. */
static void asks_more(uint8_t *fis, uint8_t far, uint8_t many)
{
    static const uint8_t features[] = { 0x03, 0x02, 0x82, 0x05, 0x85, 0x55, 0xAA, 0x66, 0xCC, 0x03 },
                         smart[] = { 0xD0, 0xD1, 0xD2, 0xD4, 0xD5, 0xD8, 0xD8, 0xD9, 0xDA, 0xD4, 0xD5, 0xD3, 0xD5, 0xD6, 0xD6, 0xD5 },
                         tests[] = { 0, 1, 2, 0x81, 0x82, 0x7F, 6, 3 }, spoiling[] = { 0x55, 0x5A, 0xA5, 0xAA, 0x55, 0x54, 0x45 };
    if (fis[2] == 0xEF)
        fis[3] = features[many % sizeof features], fis[12] = far;
    if (fis[2] == 0xC6)
        fis[12] = far % 8 == 7 ? many : (uint8_t)(1u << far % 6 >> 1);
    if (fis[2] == 0x45)
        fis[3] = spoiling[many % sizeof spoiling];
    if (fis[2] == 0x06)
        fis[3] = many % 8 != 7, fis[12] = 1 + far % 2;
    if (fis[2] == 0xB0) {
        fis[3] = smart[many % sizeof smart];
        fis[4] = tests[far % sizeof tests];
        fis[5] = 0x4F, fis[6] = far % 32 == 9 ? 0xC3 : 0xC2;
        fis[12] = fis[3] == 0xD2 && many & 1 ? 0xF1 : far % 16 != 3;
        if (many % sizeof smart > 11) /* READ LOG and WRITE LOG of the host's logs */
            fis[4] = of_host(far), fis[12] = many % 64 == 13 ? 16 + far % 2 : far % 16 == 3 ? 0 : 1 + many / 16 % 3;
    }
    if (fis[2] == 0x3F || fis[2] == 0x57 || (fis[2] == 0x2F && many % 16 > 9)) {
        fis[4] = of_host(far), fis[5] = many % 32 == 11 ? 14 + far / 8 % 3 : far / 8 % 3, fis[9] = many % 64 == 12;
        fis[12] = many % 64 == 13 ? 16 - far / 8 % 3 : many % 64 == 15 ? 0 : 1 + many / 16 % 3;
    }
}

/* How many bytes a command with these fields moves, for the length of its list: not those that count sectors. */
static uint32_t bytes_of_pages(const uint8_t *fis)
{
    const bool is_counted = fis[2] == 0x2F || fis[2] == 0x47 || fis[2] == 0x06 || fis[2] == 0x3F || fis[2] == 0x57 || (fis[2] == 0xB0 && fis[4] & 0x80 && (fis[3] == 0xD5 || fis[3] == 0xD6));
    return is_counted ? 512u * fis[12] : fis[2] == 0xEC || fis[2] == 0xB0 || fis[2] >> 4 == 0xE ? 512 : 0;
}

/* The log, page and count of the last write of a log in this run, of which a later command reads. */
static uint8_t logged[3];
static bool has_logged;

/* The driver's data of a command, in the places of its list that are memory. */
static void lay_data(const uint8_t *list, uint32_t entries, const uint8_t *bytes, uint32_t count)
{
    for (uint32_t i = 0; count && i < entries && i < MOST_LAID; i++, list += 16) {
        const uint32_t size = (((uint32_t)little(list + 12, 4) & 0x3FFFFF) | 1) + 1, part = size < count ? size : count;
        uint8_t *place = memory(little(list, 8) & ~(uint64_t)1, part);
        if (place)
            memcpy(place, bytes, part);
        bytes += part;
        count -= part;
    }
}

/* The data of a TRIM: a few LBA Range Entries, anywhere in its blocks, of sectors that are on the disk, and now and then so many that no two are apart; one that names none, with any LBA;
   and one time of eight one with sectors that are not on the disk. */
static void lay_ranges(const uint8_t *list, uint32_t entries, uint32_t blocks)
{
    static uint8_t bytes[255 * AHCI_PAGE_BYTES];
    const uint8_t pick = byte();
    const uint32_t room = blocks * RANGES_OF_BLOCK, count = pick % 32 == 31 ? 20 : 1 + pick % 5;
    memset(bytes, 0, blocks * AHCI_PAGE_BYTES);
    for (uint32_t i = 0; room && i < count; i++) {
        const uint8_t what = byte();
        const uint32_t lba = what % has, most = has - lba;
        put(bytes + byte() % room * RANGE_BYTES, lba | (uint64_t)(1 + what / 16 % most) << 48, RANGE_BYTES);
    }
    if (room && pick & 0x40)
        put(bytes + byte() % room * RANGE_BYTES, pick & 0x80 ? 0xFFFFFFFFFFFF : has, RANGE_BYTES);
    if (room && pick / 8 % 8 == 7)
        put(bytes + byte() % room * RANGE_BYTES, pick & 0x80 ? 0x0001FFFFFFFFFFFF : (has - 1) | (uint64_t)2 << 48, RANGE_BYTES);
    lay_data(list, entries, bytes, blocks * AHCI_PAGE_BYTES);
}

/* Half of the commands that aren't queued read the log that was written last. */
static void read_back(uint8_t *fis, uint8_t odd)
{
    if (fis[2] == 0x3F || fis[2] == 0x57) {
        logged[0] = fis[4], logged[1] = fis[5], logged[2] = fis[12];
        has_logged = true;
    } else if (has_logged && odd & 2) {
        fis[2] = odd & 4 ? 0x2F : 0x47;
        fis[3] = fis[6] = fis[9] = 0;
        fis[4] = logged[0], fis[5] = logged[1], fis[12] = logged[2];
    }
}

/* The fields of READ LOG EXT and READ LOG DMA EXT: a log that there is, mostly with pages that it has. */
static void asks_log(uint8_t *fis, uint8_t far, uint8_t many)
{
    static const uint8_t logs[] = { 0x10, 0x30, 0x10, 0x00, 0x03, 0x04, 0x07, 0x11 };
    const bool is_long = many % 4 == 1 || many % 8 == 5;
    fis[3] = far >> 4 & 1; /* of log 11h: its counters are reset */
    fis[4] = many % 4 == 1 ? 0x30 : logs[many % 8];
    fis[5] = is_long ? far % 8 : 0;
    fis[12] = is_long ? 1 + far / 4 % 3 : many % 16 ? 1 : 2;
}

/* Whether a run is about TRIM and what it touches: marks, the power mode, flushes, and what is reported. */
static bool is_about_trim;

/* The code of a command, of which those of queued ones come most. */
static uint8_t some_code(void)
{
    static const uint8_t codes[] = { 0x60, 0x61, 0x60, 0x61, 0x60, 0x61, 0x60, 0x61, 0xC8, 0xCA, 0x25, 0x35, 0x20, 0x20, 0x30, 0x24, 0x34, 0x34, 0xEC, 0x2F, 0x2F, 0x47, 0xEA,
        0xE7, 0xEF, 0xA1, 0x40, 0x42, 0x27, 0x90, 0xE5, 0xE5, 0xE5, 0xE0, 0xE2, 0xE1, 0xE3, 0xE6, 0x00, 0xB0, 0xB0, 0xB0, 0xB0, 0xB0, 0xEF, 0xEF, 0xEF, 0xE4, 0xE8, 0xE8, 0xE9,
        0xEB, 0x06, 0x06, 0x3D, 0xC4, 0xC5, 0x29, 0x39, 0xCE, 0xC6, 0xC6, 0xC6, 0xC4, 0x45, 0x3F, 0x3F, 0x57, 0x57, 0x2F, 0xB0, 0xB0 },
        of_trim[] = { 0x06, 0x06, 0x06, 0x06, 0x06, 0x45, 0x45, 0xE0, 0xE2, 0xE5, 0xE5, 0xE5, 0xC8, 0x25, 0xCA, 0x40, 0x60, 0x61, 0xEA, 0xEC, 0x2F };
    const uint8_t pick = byte();
    return is_about_trim ? of_trim[pick % sizeof of_trim] : codes[pick % sizeof codes];
}

/* Lays out a command in a slot, and issues it. */
static void command(void)
{
    const uint32_t slot = byte() % 8 == 7 ? 31 : byte() % 6, code = some_code(), bit = 1u << slot;
    const uint8_t far = byte(), lba = far % 32 ? far % 12 : far / 32 + 10, many = byte(), count = many % 128 ? 1 + many % 5 : 0, odd = byte();
    const bool queued = code == 0x60 || code == 0x61, is_control = odd % 32 == 30 || (soft == HELD && odd % 4 == 2);
    const uint32_t tag = odd % 16 == 9 ? depth + many % 3 - 1 : slot;
    const uint64_t at = (odd & 1 ? HIGH + TABLE_BYTES : LOW + 0x1000) + TABLE_BYTES * (slot % 3);
    uint8_t *header = memory(list_base() + 32 * slot, 32), *table = memory(at, TABLE_BYTES);
    uint8_t fis[20] = { 0x27, 0x80, (uint8_t)code, queued ? count : 3, lba, 0, 0, 0x40, 0, 0, 0, 0, queued ? (uint8_t)(tag << 3) : count };
    if (code == 0x2F || code == 0x47)
        asks_log(fis, far, many);
    asks_more(fis, far, many);
    if (!queued)
        read_back(fis, odd);
    if (is_control) /* with SRST or without */
        fis[1] = 0, fis[15] = odd >> 5 & 4;
    if (odd % 64 == 28)
        fis[byte() % 20] = byte();
    if (header) {
        memcpy(table, fis, sizeof fis);
        const uint32_t paged = bytes_of_pages(fis), entries = lay_list(table + 0x80, paged ? paged : count ? count * 512u : 0x2000);
        if (fis[2] == 0x06)
            lay_ranges(table + 0x80, entries, fis[12]);
        put(header, 5 | (odd & 0x40) | (is_control && many % 4 ? 0x500 : many % 64 == 33 ? 0x400 : 0) | entries << 16, 4);
        put(header + 4, 0, 4);
        put(header + 8, odd % 64 == 12 ? at + 0x20000 : at + (odd & 0x7F), 8);
        if (odd % 64 == 14)
            header[byte() % 16] = byte();
    }
    if (queued || odd % 8 == 5)
        write(AHCI_REG_PXSACT, bit);
    write(AHCI_REG_PXCI, bit);
}

/* What the controller can do: the usual, or anything. */
static ahci_hba_capabilities capabilities(void)
{
    ahci_hba_capabilities it = AHCI_HBA_USUAL;
    if (byte() % 2) {
        const uint8_t flags = byte();
        it = (ahci_hba_capabilities) { 1 + byte() % 32, 1 + byte() % 3, flags & 1, flags & 2, flags & 4, flags & 8, flags & 16, flags & 32 };
    }
    return it;
}

/* The port is initialised (section 10.1.2), with its places below HIGH or above it, or nowhere. */
static void start(void)
{
    const uint8_t pick = byte();
    write(AHCI_REG_PXCMD, 0);
    write(AHCI_REG_GHC, 0x80000000u | (pick & 2));
    write(AHCI_REG_PXCLB, pick % 64 == 9 ? 0x20000 : pick & 1 ? 0x0 : LOW);
    write(AHCI_REG_PXCLBU, pick & 1);
    write(AHCI_REG_PXFB, pick % 64 == 11 ? 0x20000 : pick & 4 ? 0x400 : LOW + 0x400);
    write(AHCI_REG_PXFBU, pick >> 2 & 1);
    write(AHCI_REG_PXCMD, pick % 32 == 13 ? 2 : 0x12);
    write(AHCI_REG_PXIS, 0xFFFFFFFF);
    write(AHCI_REG_PXSERR, 0xFFFFFFFF);
    write(AHCI_REG_PXIE, 0x7840007F);
    write(AHCI_REG_PXCMD, pick % 32 == 13 ? 3 : 0x13);
}

/* ST off and on, as after an error; with CLO, so that a command that is never answered leaves no BSY. */
static void restart(void)
{
    write(AHCI_REG_PXCMD, 0x12);
    write(AHCI_REG_PXCMD, byte() % 4 ? 0x1A : 0x12);
    write(AHCI_REG_PXIS, 0xFFFFFFFF);
    write(AHCI_REG_PXCMD, 0x13);
}

/* FRE off or on, whatever the port does. */
static void pause(void) { write(AHCI_REG_PXCMD, (reg.on ? 3 : 2) | (reg.receiving ? 0 : 0x10)); }

/* Nothing happens any more by itself. */
static bool is_stuck(void)
{
    bool stuck = look.want == AHCI_WANT_NOTHING && !look.sign && reg.on && is_busy_with_one();
    for (uint32_t slot = 0; slot < 32; slot++)
        stuck = stuck && look.next[slot] == AHCI_STEP_NONE;
    return stuck;
}

static void restart_if_halted(void)
{
    if (reg.halted || is_stuck())
        restart();
}

/* A reset of the HBA, of the link, or none; a device in Sleep waits for one. */
static void reset(void)
{
    const uint8_t pick = byte();
    if (pick % 16 == 1)
        write(AHCI_REG_GHC, 0x80000001 | (pick & 2));
    if (pick % 4 && power != SLEEP)
        return;
    write(AHCI_REG_PXSCTL, byte() % 4 ? 0x301 : 0x304);
    if (byte() % 8)
        write(AHCI_REG_PXSCTL, 0x300);
}

/* Power-on, one time of four, so that runs get on: only a queue with requests hands its journal out. */
static void power_cycle(void)
{
    uint64_t entries = 77;
    const bool busy = is_busy();
    if (byte() % 4)
        return;
    CHECK(ahci_hba_power_on(&hba, &entries) == AHCI_OK && (entries != 0) == busy);
    power_on();
    follow(entries);
    compare();
    if (byte() % 8)
        start();
}

/* A write anywhere, of any size. Few of them reset the HBA. */
static void write_any(void)
{
    static const uint32_t sizes[] = { 1, 2, 4, 8 };
    const uint32_t size = sizes[byte() % 4], pick = byte(), offset = pick % 4 ? 0x100 + 4 * (pick % 16) + pick / 64 : word() % 0x400;
    const uint64_t value = byte() % 2 ? word() | (uint64_t)word() << 32 : byte();
    const bool resets = (offset & ~7u) == 0 && byte() % 16;
    if (!resets)
        writes(offset, size, value);
}

/* A read anywhere: a part of its word, two words, or 0. */
static void read_any(void)
{
    const uint32_t size = 1 + byte() % 8, offset = byte() % 4 ? 0x100u + byte() % 0x50 : word() % 0x400;
    uint64_t value = 7, wanted = 0;
    if (size == 8)
        wanted = driven(offset & ~7u) | (uint64_t)driven((offset & ~7u) + 4) << 32;
    else if (size <= 4)
        wanted = driven(offset & ~3u) >> 8 * (offset & 3) & (size < 4 ? (1u << 8 * size) - 1 : 0xFFFFFFFFu);
    const bool whole = size == 1 || size == 2 || size == 4 || size == 8;
    CHECK(ahci_hba_read(&hba, offset, size, &value) == (whole ? AHCI_OK : AHCI_WRONG_LENGTH));
    CHECK(!whole || value == (offset % size ? 0 : wanted));
    if (!whole)
        CHECK(ahci_hba_write(&hba, offset, size, value, &wanted) == AHCI_WRONG_LENGTH);
}

/* Some bytes of the memory change at any time. */
static void scribble(void)
{
    for (uint32_t i = byte() % 8; i; i--)
        low[word() % sizeof low] = byte();
}
