/* The commands of the shadow: the journal that they leave, what a command FIS asks, and which bytes are read for it and when. */
#include "hba_shadow_pages.h"

/* The entry of sectors that became zeros: those of the step that was taken, and no others. */
static void follow_zeros(const ahci_entry *entry)
{
    CHECK(entry->sectors && entry->lba == zeroed.lba && entry->sectors == zeroed.sectors && entry->lba + entry->sectors <= has && entry->tag == 0 && entry->error == 0);
    zeroed.sectors = 0;
    loss_zeroes(entry->lba, entry->sectors);
    memset(image + entry->lba * AHCI_SECTOR_BYTES, 0, (size_t)entry->sectors * AHCI_SECTOR_BYTES);
}

/* The journal's new entries: a write's bytes are those that were read, and a completed command's are the image's. */
static void follow(uint64_t entries)
{
    ahci_state state;
    ahci_entry entry;
    static uint8_t bytes[KEPT];
    CHECK(ahci_hba_port(&hba, &state) == AHCI_OK && state.first == first + entries && state.halted == failed);
    if (first != state.first || state.first == state.next)
        loss_begins();
    first = state.first;
    for (seen = seen > first ? seen : first; seen < state.next; seen++) {
        CHECK(ahci_hba_entry(&hba, seen, &entry) == AHCI_OK);
        struct command *it = &slots[entry.tag % 32];
        const size_t size = it->moved < KEPT ? (size_t)it->moved : KEPT;
        if (entry.kind == AHCI_EVENT_READ || entry.kind == AHCI_EVENT_WRITE) {
            CHECK(entry.lba == it->lba && entry.sectors == it->sectors && (entry.kind == AHCI_EVENT_WRITE) == it->writes);
            if (it->writes && it->moved <= KEPT)
                CHECK(ahci_hba_entry_bytes(&hba, seen, bytes, sizeof bytes) == AHCI_OK && memcmp(bytes, it->bytes, size) == 0);
            loss_issues(entry.tag, it->writes, it->lba, it->sectors, it->bytes);
        } else if (entry.kind == AHCI_EVENT_FAIL || entry.kind == AHCI_EVENT_COLLECT) {
            going[entry.tag].on = false;
        } else if (entry.kind == AHCI_EVENT_FLUSH) {
            loss_flushes();
        } else if (entry.kind == AHCI_EVENT_ZERO) {
            follow_zeros(&entry);
        } else if (entry.kind == AHCI_EVENT_COMPLETE) {
            loss_completes(entry.tag);
            CHECK(it->sent && it->lba + it->sectors <= has);
            if (it->writes)
                memcpy(image + it->lba * AHCI_SECTOR_BYTES, it->bytes, size);
            else
                memcpy(it->bytes, image + it->lba * AHCI_SECTOR_BYTES, size);
        }
    }
    CHECK(zeroed.sectors == 0);
    interrupt();
}

/* A write of some bytes. What is not written of a word is as it is read, or 0 where writing 1 clears or sets. */
static void writes(uint32_t offset, uint32_t size, uint64_t value)
{
    const uint32_t at = offset & ~3u, shift = 8 * (offset & 3), mask = size < 4 ? ((1u << 8 * size) - 1) << shift : 0xFFFFFFFFu;
    const bool ones = at == AHCI_REG_IS || at == AHCI_REG_PXIS || at == AHCI_REG_PXSERR || at == AHCI_REG_PXSACT || at == AHCI_REG_PXCI;
    const uint32_t was = driven(at), word = (uint32_t)value << shift & mask;
    uint64_t entries = 77;
    CHECK(ahci_hba_write(&hba, offset, size, value, &entries) == AHCI_OK);
    if (offset % size == 0) {
        takes(at, ones ? word : word | (was & ~mask));
        if (size == 8)
            takes(at + 4, (uint32_t)(value >> 32));
    }
    follow(entries);
}

static void write(uint32_t offset, uint32_t value) { writes(offset, 4, value); }

/* ---- what a command FIS asks ---- */

/* WRITE UNCORRECTABLE EXT, with a value of the features that isn't reserved: a pseudo-uncorrectable or a flagged error, with logging or without. */
static bool spoils(const uint8_t *fis) { return fis[2] == 0x45 && (fis[3] == 0x55 || fis[3] == 0x5A || fis[3] == 0xA5 || fis[3] == 0xAA); }

/* What a command FIS asks (docs/LAYOUTS.md, "The controller's commands"). A queued command whose TAG is not below the depth is none
   that the disk has, but it is read as one. */
static void asks(struct command *it, const uint8_t *fis)
{
    const uint32_t code = fis[2], count = (uint32_t)little(fis + 12, 2), features = fis[3] | (uint32_t)fis[11] << 8;
    const uint64_t low_lba = little(fis + 4, 3), lba = low_lba | little(fis + 8, 3) << 24;
    const bool is_short = code == 0x20 || code == 0x30 || code == 0xC4 || code == 0xC5 || code == 0xC8 || code == 0xCA || code == 0x40;
    const bool is_multiple = code == 0x29 || code == 0x39 || code == 0xC4 || code == 0xC5 || code == 0xCE;
    memcpy(it->fis, fis, sizeof it->fis);
    it->sent = it->accepted = it->queued = it->writes = it->pio = it->multiple = it->error_log = it->long_log = it->host_log = it->is_smart = false;
    it->pieces = it->piece = it->sectors = it->entry = it->ranges = 0;
    it->room = it->used = it->into = 0;
    it->kind = OTHER;
    it->resets = fis[15] & 4;
    it->lba = is_short ? low_lba | (uint64_t)(fis[7] & 15) << 24 : lba;
    if (!(fis[1] & 0x80)) {
        it->kind = CONTROL;
    } else if ((code == 0x60 || code == 0x61) && fis[7] & 0x40) {
        it->kind = fis[12] >> 3 < depth ? QUEUE : OTHER;
        it->queued = true;
        it->writes = code == 0x61;
        it->sectors = features ? features : 65536;
        counted.deep += it->kind == OTHER;
    } else if (is_short || is_multiple || code == 0x24 || code == 0x25 || code == 0x34 || code == 0x35 || code == 0x3D || code == 0x42) {
        it->writes = (code & 0xF0) == 0x30 || code == 0xC5 || code == 0xCA || code == 0xCE;
        it->kind = code == 0x40 || code == 0x42 ? OTHER : it->writes ? WRITE : READ;
        it->multiple = is_multiple;
        it->pio = is_multiple || code == 0x20 || code == 0x24 || code == 0x30 || code == 0x34;
        it->sectors = is_short ? (count & 0xFF ? count & 0xFF : 256) : count ? count : 65536;
    } else if (spoils(fis)) {
        it->sectors = count ? count : 65536;
    } else if (code == 0xEC || is_buffer(code) || reads_log(code, lba, count) || reads_smart(fis)) {
        const bool is_log = reads_log(code, lba, count);
        it->kind = PAGE;
        it->pio = code != 0x47 && code != 0xE9;
        it->error_log = is_log && (lba & 0xFF) == 0x10;
        it->host_log = is_host_log(fis[4]) && (is_log || (code == 0xB0 && fis[3] == 0xD5));
        it->long_log = it->host_log || (is_log && pages_of(lba & 0xFF) > 1);
        it->is_smart = code == 0xB0 || (is_log && ((lba & 0xFF) == 3 || (lba & 0xFF) == 7));
        it->pages = is_log ? count : it->host_log ? fis[12] : 1;
    } else if (code == 0xE8 || code == 0xEB || (code == 0x06 && features & 1 && count && count <= 8)) {
        it->kind = STORE;
        it->writes = true;
        it->pio = code == 0xE8;
        it->pages = code == 0x06 ? count : 1;
    } else if (writes_log(code, lba, count) || (fis[3] == 0xD6 && names_host_log(fis))) {
        it->kind = STORE;
        it->writes = it->host_log = true;
        it->pio = code != 0x57;
        it->is_smart = code == 0xB0;
        it->pages = code == 0xB0 ? fis[12] : count;
    }
    it->has_48_bits = it->kind != CONTROL && (it->queued || (it->kind == PAGE && (code == 0x2F || code == 0x47)) || (it->kind == STORE && (code == 0x06 || code == 0x3F || code == 0x57))
        || code == 0x24 || code == 0x25 || code == 0x27 || code == 0x29 || code == 0x39 || code == 0xCE || code == 0x34 || code == 0x35 || code == 0x3D || code == 0x42 || code == 0xEA
        || spoils(fis));
    it->moved = it->kind == PAGE || it->kind == STORE ? it->pages * AHCI_PAGE_BYTES : code == 0x40 || code == 0x42 || code == 0x45 ? 0 : (uint64_t)it->sectors * AHCI_SECTOR_BYTES;
}

/* Whether some sector of it is not on the disk, and the first one that is not. */
static bool is_past(const struct command *it) { return it->lba + it->sectors > has; }
static uint64_t first_past(const struct command *it) { return it->lba > has ? it->lba : has; }

/* The sectors that it names and the disk has end before this one. */
static uint64_t end_of(const struct command *it) { return it->lba + it->sectors < has ? it->lba + it->sectors : has; }

/* Whether it reads a sector that can't be read, and the first one. */
static bool meets_unreadable(const struct command *it, uint64_t *lba)
{
    const bool is_read = it->kind == READ || (it->kind == QUEUE && !it->writes) || (it->kind == OTHER && (it->fis[2] == 0x40 || it->fis[2] == 0x42));
    for (*lba = it->lba; is_read && *lba < end_of(it); ++*lba)
        if (unreadable[*lba])
            return true;
    return false;
}

/* Sectors before an end can't be read any more, or can again. */
static void turns_sectors(uint64_t lba, uint64_t end, bool bad)
{
    for (; lba < end; lba++) {
        counted.spoiled += bad;
        counted.mended += !bad && unreadable[lba];
        unreadable[lba] = bad;
    }
}

/* ---- what is read ---- */

/* What comes next of a command that is read: where it is, and how many bytes. */
static uint64_t next_read(uint64_t *at)
{
    const struct command *it = &slots[fetch.slot];
    const uint32_t entries = fetch.entries - it->pieces;
    *at = reach(fetch.phase == 0 ? list_base() + 32 * fetch.slot : fetch.phase == 1 ? fetch.table : fetch.phase == 2 ? fetch.table + 0x80 + 16 * it->pieces : it->list[fetch.piece].at);
    return fetch.phase == 0 ? 32 : fetch.phase == 1 ? 20 : fetch.phase == 2 ? 16 * (entries < 32 ? entries : 32)
        : it->list[fetch.piece].bytes < fetch.left ? it->list[fetch.piece].bytes : fetch.left;
}

/* The command is read, and its FIS is sent: BSY is set, or with C it is not, and the slot's bit of PxCI goes (section 4.2.2). */
static void placed(void)
{
    fetch.on = false;
    slots[fetch.slot].there = true;
    reg.ci &= ~(fetch.clears ? 1u << fetch.slot : 0);
    reg.tfd = fetch.clears ? reg.tfd & ~(uint32_t)BSY : reg.tfd | BSY;
}

/* The list has fewer bytes than the command moves: a read is sent all the same. So is a write, and then nothing moves any more. */
static void is_too_short(const struct command *it)
{
    placed();
    counted.stuck += it->writes;
    reg.halted = it->writes;
}

/* Takes some entries of the list. */
static void reads_list(struct command *it, const uint8_t *bytes, uint64_t count)
{
    for (uint64_t i = 0; i < count / 16; i++, it->pieces++) {
        CHECK(it->pieces < PIECES);
        it->list[it->pieces].at = little(bytes + 16 * i, 8) & ~(uint64_t)1;
        it->list[it->pieces].bytes = ((little(bytes + 16 * i + 12, 4) & 0x3FFFFF) | 1) + 1;
        it->list[it->pieces].asks = bytes[16 * i + 15] >> 7;
        it->room += it->list[it->pieces].bytes;
    }
    fetch.left = it->moved;
    fetch.piece = 0;
    if (it->room < it->moved && it->pieces < fetch.entries)
        fetch.phase = 2;
    else if (it->room < it->moved)
        is_too_short(it);
    else if (!it->writes)
        placed();
}

/* Takes the bytes that came next. */
static void reads(const uint8_t *bytes, uint64_t count)
{
    struct command *it = &slots[fetch.slot];
    uint64_t done;
    switch (fetch.phase++) {
    case 0:
        fetch.entries = (uint32_t)little(bytes + 2, 2);
        fetch.table = little(bytes + 8, 8) & ~(uint64_t)127;
        fetch.clears = bytes[1] & 4;
        if ((bytes[0] & 0x3F) != 5 || bytes[1] & 2)
            fatal(IFS);
        break;
    case 1:
        asks(it, bytes);
        if (bytes[0] != 0x27)
            fatal(IFS);
        else if (!it->moved)
            placed();
        else if (!fetch.entries)
            is_too_short(it);
        break;
    case 2: reads_list(it, bytes, count); break;
    default:
        done = it->moved - fetch.left;
        if (done < KEPT)
            memcpy(it->bytes + done, bytes, count < KEPT - done ? count : KEPT - done);
        fetch.left -= count;
        fetch.phase = 3;
        fetch.piece++;
        if (!fetch.left)
            placed();
    }
}
