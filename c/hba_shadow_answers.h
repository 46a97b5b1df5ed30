/* The answers of the shadow's disk: its FISes, and which bytes are written and when. */
#include "hba_shadow_trim.h"

/* ---- the device's FISes ---- */

static struct fis d2h(uint8_t flags, uint8_t status, uint8_t error, uint64_t lba)
{
    struct fis it = { { 0x34, flags, status, error }, 20, false };
    put(it.bytes + 4, lba, 3);
    put(it.bytes + 8, lba >> 24, 3);
    return it;
}

static struct fis good(void) { return d2h(0x40, 0x40, 0, 0); }

/* An LBA after a command of 28 bits has its bits 27:24 in the device field (Serial ATA, "Register FIS - Device to Host"). */
static struct fis at_lba(const struct command *it, uint8_t status, uint8_t error, uint64_t lba)
{
    struct fis made = d2h(0x40, status, error, it->has_48_bits ? lba : lba & 0xFFFFFF);
    made.bytes[7] = it->has_48_bits ? 0 : lba >> 24 & 15;
    return made;
}

static struct fis bad(const struct command *it, uint8_t error, uint64_t lba) { return at_lba(it, 0x41, error, lba); }

/* With a signature, which PxSIG shows so: count 7:0 in bits 7:0, and LBA 23:0 in bits 31:8 (section 3.3.9). */
static struct fis with(uint32_t signature, struct fis it)
{
    put(it.bytes + 4, signature >> 8, 3);
    it.bytes[12] = (uint8_t)signature;
    return it;
}

/* That of a disk. */
static struct fis with_signature(struct fis it) { return with(0x101, it); }

/* It has the whole number of bytes: the device has not come to the sector that fails. */
static struct fis dma_setup(const struct command *it, uint32_t slot)
{
    struct fis made = { { 0x41, it->writes ? 0 : 0x20, 0, 0, (uint8_t)slot }, 28, false };
    put(made.bytes + 20, it->moved, 4);
    return made;
}

static struct fis set_bits(uint8_t status, uint8_t error, uint32_t bits)
{
    struct fis made = { { 0xA1, 0x40, status, error }, 8, false };
    put(made.bytes + 4, bits, 4);
    return made;
}

/* The FIS before a block of so many sectors: the host's first block of a write has no I (docs/LAYOUTS.md, "PIO, block by block"). */
static struct fis pio_setup(bool out, bool is_first, bool is_last, uint32_t sectors)
{
    struct fis made = { { 0x5F, out ? (is_first ? 0 : 0x40) : 0x60, 0x48 }, 20, false };
    made.bytes[15] = !out && is_last ? 0x40 : 0xC0;
    put(made.bytes + 16, sectors * AHCI_SECTOR_BYTES, 2);
    return made;
}

/* ---- answers ---- */

/* The data of a command go on by so many bytes, to the driver or from it: whether those of an entry with I are complete with one of them. */
static bool passes(struct command *it, uint64_t count)
{
    bool tells = false;
    while (count && it->piece < it->pieces) {
        const uint64_t rest = it->list[it->piece].bytes - it->into, part = rest < count ? rest : count;
        it->into += part;
        count -= part;
        if (part == rest) {
            tells = tells || it->list[it->piece].asks;
            it->into = 0;
            it->piece++;
        }
    }
    return tells;
}

/* An answer is put together: a FIS or none, data, PRDBC, another FIS or none. Data that have no room fill the list, and the rest of them is dropped. The data of a
   write that go `out` were read before. */
static void answers(uint32_t slot, struct fis before, uint64_t data, uint64_t out, bool counts, struct fis after)
{
    struct command *it = &slots[slot];
    answer.on = true;
    answer.slot = slot;
    answer.spills = data && data > it->room - it->used;
    answer.left = answer.spills ? it->room - it->used : data;
    answer.tells = passes(it, out);
    answer.counts = counts;
    answer.before = before;
    answer.after = after;
    answer.before.due = before.size && reg.receiving;
    answer.after.due = after.size && reg.receiving;
    answer.signs = answer.unasked = false;
    if (is_over())
        ends();
}

static void answers_alone(uint32_t slot, struct fis fis) { answers(slot, no_fis, 0, 0, false, fis); }

/* A FIS that no command asks for is sent. */
static void sends(struct fis fis)
{
    answer = (__typeof__(answer)){ .on = true, .unasked = true, .before = no_fis, .after = fis };
    answer.after.due = true;
    counted.unasked++;
}

/* The FIS of a device's signature is taken, or posted later, as it was taken: a packet device is not ready for ATA's commands (Serial ATA, "Signature"). */
static void signs(uint32_t signature_sent)
{
    const uint32_t it = signature == UNPOSTED ? told : signature_sent;
    if (signature == DUE && soft == OFF) /* COMRESET has it sent, and not a software reset */
        counts(&signatures);
    counted.foreign += it != 0x101;
    answer.signature = it;
    answer.on = answer.signs = true;
    answer.spills = answer.tells = answer.counts = answer.unasked = false;
    answer.slot = 0;
    answer.left = 0;
    answer.before = no_fis;
    answer.after = with(it, d2h(0, it == 0xEB140101 ? 0x00 : 0x50, 1, 0));
    answer.after.due = reg.receiving;
    if (is_over())
        ends();
}

/* An answer of several blocks is begun, with a FIS behind them or none. */
static void begins(uint32_t slot, uint64_t bytes, struct fis end)
{
    transfer.on = transfer.begun = true;
    transfer.slot = slot;
    transfer.sectors = (uint32_t)(bytes / AHCI_SECTOR_BYTES);
    transfer.per_block = slots[slot].multiple && disk.per_block ? disk.per_block : 1;
    transfer.past = 0;
    transfer.end = end;
}

/* The next block, or what comes behind the last one of a write and of a read that fails: PRDBC and the FIS. */
static void moves_on(uint32_t slot)
{
    const uint32_t rest = transfer.sectors - transfer.past, sectors = rest < transfer.per_block ? rest : transfer.per_block, bytes = sectors * AHCI_SECTOR_BYTES;
    const bool out = slots[slot].writes, is_first = transfer.past == 0, is_last = sectors == rest && !transfer.end.size;
    if (!rest) {
        transfer.on = false;
        if (slots[slot].kind == STORE && slots[slot].host_log)
            writes_pages(&slots[slot]);
        answers(slot, no_fis, 0, 0, true, transfer.end);
        return;
    }
    transfer.past += sectors;
    transfer.on = !is_last;
    counted.long_blocks += sectors > 1;
    answers(slot, pio_setup(out, is_first, is_last, sectors), out ? 0 : bytes, out ? bytes : 0, !out, no_fis);
}

/* The answer to a command that has moved its data in the disk. */
static void delivers(uint32_t slot)
{
    const struct command *it = &slots[slot];
    const uint64_t data = it->writes ? 0 : it->moved, out = it->moved - data;
    transfer.on = false;
    if (it->kind == QUEUE)
        answers(slot, dma_setup(it, slot), data, out, false, set_bits(0x40, 0, 1u << slot));
    else if (it->kind == PAGE && it->pio && !it->long_log)
        answers(slot, pio_setup(false, true, true, 1), data, out, true, no_fis);
    else if (it->pio)
        begins(slot, it->moved, it->writes ? good() : no_fis);
    else
        answers(slot, no_fis, data, out, true, good());
}

/* How many bytes of a read come before an LBA, of those that are on the disk; they are taken from the image. */
static uint64_t comes_before(struct command *it, uint64_t lba)
{
    const uint64_t end = it->lba + it->sectors, stop = lba < end ? lba : end, last = stop < has ? stop : has;
    if (it->writes || last <= it->lba || !it->moved)
        return 0;
    memcpy(it->bytes, image + it->lba * AHCI_SECTOR_BYTES, (last - it->lba) * AHCI_SECTOR_BYTES);
    counted.partial++;
    return (last - it->lba) * AHCI_SECTOR_BYTES;
}

/* Whether a queued command is outstanding beside a slot's. */
static bool is_queueing(uint32_t slot)
{
    bool queueing = false;
    for (uint32_t other = 0; other < 32; other++)
        queueing = queueing || (other != slot && slots[other].there && slots[other].queued);
    return queueing;
}

/* A command that is not queued ends with ERR: under queued ones it is an error of the queue, none of which is carried out any more, and log 10h has it (ACS-3, NCQ). */
static void mixes(uint32_t slot, uint8_t status, uint8_t error)
{
    if (status & ERR && !slots[slot].queued && is_queueing(slot) && !failed && !mixed) {
        mixed = true;
        mixed_error = error;
        counted.mixed++;
    }
}

/* A command that is not queued fails at an LBA: a read has moved what comes before, and a write names its first sector. */
static void ends_alone(uint32_t slot, uint8_t status, uint8_t error, uint64_t lba)
{
    mixes(slot, status, error);
    is_ended(status, error);
    struct command *it = &slots[slot];
    counted.cut += it->ranges != 0;
    const uint64_t data = it->kind == READ ? comes_before(it, lba) : 0;
    const struct fis fis = at_lba(it, status, error, it->kind == WRITE ? it->lba : lba);
    it->there = false;
    if (data && it->pio)
        begins(slot, data, fis);
    else
        answers(slot, no_fis, data, 0, data != 0, fis);
}

static void fails_alone(uint32_t slot, uint8_t error, uint64_t lba) { ends_alone(slot, 0x41, error, lba); }

/* A queued command fails: refused as it is taken, or at one of its sectors. */
static void fails(uint32_t slot, uint8_t error, uint64_t lba, bool is_refused)
{
    struct command *it = &slots[slot];
    const uint64_t at = it->writes && !is_refused ? it->lba : lba, data = is_refused ? 0 : comes_before(it, lba);
    failed = true;
    is_ended(0x41, error);
    counted.icrc += error >> 7;
    CHECK(ahci_log_page(slot, error, at, page, sizeof page) == AHCI_OK);
    if (is_refused)
        answers_alone(slot, bad(it, error, at));
    else
        answers(slot, data ? dma_setup(it, slot) : no_fis, data, 0, false, set_bits(0x41, error, 0));
}

/* Whether the disk aborts a command that is not queued: a queued one is outstanding, log 10h is to be read before any other command, or its blocks have no size. */
static bool is_aborted(uint32_t slot)
{
    return ((failed || mixed) && !slots[slot].error_log) || is_queueing(slot) || (slots[slot].multiple && !disk.per_block);
}

/* The D2H Register FIS of a command that moves no data. */
static struct fis answer_to(const struct command *it)
{
    struct fis fis = good();
    uint64_t lba;
    if (meets_unreadable(it, &lba))
        return bad(it, 0x40, lba);
    switch (it->fis[2]) {
    case 0x45:
        if (!it->sectors)
            return bad(it, 4, 0);
        if (!is_past(it))
            turns_sectors(it->lba, end_of(it), true);
        return is_past(it) ? bad(it, 0x10, first_past(it)) : fis;
    case 0x40: case 0x42: return is_past(it) ? bad(it, 0x10, first_past(it)) : fis;
    case 0xF8: case 0x27: return at_lba(it, 0x40, 0, has - 1);
    case 0xE7: case 0xEA: case 0xE0: case 0xE1: case 0xE2: case 0xE3: case 0xE6: return fis;
    case 0xEF: return sets_feature(it) ? fis : bad(it, 4, 0);
    case 0xC6: return sets_blocks(it) ? fis : bad(it, 4, 0);
    case 0xB0:
        if (!is_smart(it))
            return bad(it, 4, 0);
        return it->fis[3] == 0xDA || (it->fis[3] == 0xD4 && (it->fis[4] == 0x81 || it->fis[4] == 0x82)) ? d2h(0x40, 0x40, 0, 0xC24F00) : fis; /* no threshold is exceeded, or a captive test has passed */
    case 0xE5: fis.bytes[12] = power == STANDBY ? 0 : 0xFF; return fis;
    case 0x90: return with_signature(d2h(0x40, 0x40, 1, 0));
    case 0xA1: return with_signature(bad(it, 4, 0));
    default: return bad(it, 4, 0);
    }
}

/* A command that needs the medium makes the device Active. */
static void needs_medium(const struct command *it)
{
    const uint8_t code = it->fis[2];
    if (it->kind == QUEUE || it->kind == READ || it->kind == WRITE || code == 0x40 || code == 0x42 || code == 0xE7 || code == 0xEA || spoils(it->fis))
        power = ACTIVE;
}

/* The power mode behind a command that is carried out (ACS-3, by the commands' titles). */
static void turns_by(const struct command *it)
{
    needs_medium(it);
    switch (it->fis[2]) {
    case 0xE0: case 0xE2: power = STANDBY; break;
    case 0xE1: case 0xE3: power = IDLE; break;
    case 0xE6: power = SLEEP, counted.slept++; break;
    }
}

/* The disk takes data that are no sectors: its buffer; the entries of a TRIM, whose sectors are zeros by now or stay as they are; or pages of a log of the host's, by PIO once the
   last block has come. */
static void stores(uint32_t slot)
{
    const struct command *it = &slots[slot];
    const bool trims = is_trim(it), is_bad = trims && leaves_disk(it);
    const struct fis end = is_bad ? bad(it, 0x04, 0) : good();
    if (it->host_log && !it->pio)
        writes_pages(it);
    if (!trims && !it->host_log)
        memcpy(disk.buffer, it->bytes, AHCI_PAGE_BYTES);
    if (trims)
        counts_trim(it, is_bad);
    counted.stored++;
    if (it->pio)
        begins(slot, it->moved, end);
    else
        answers(slot, no_fis, 0, it->moved, true, end);
}

/* The sectors that the next step of a slot makes zeros, if that carries a command out. */
static struct range range_due(uint32_t slot) { return is_aborted(slot) ? no_range : next_range(&slots[slot]); }

/* A command for which the queue moves no sectors is carried out, or aborted. A TRIM that makes sectors zeros takes a step for each range, and then one that ends it. */
static void executes(uint32_t slot)
{
    struct command *it = &slots[slot];
    const bool aborted = is_aborted(slot);
    const struct range range = range_due(slot);
    uint64_t lba;
    if (range.sectors) {
        makes_zeros(it, range);
        return;
    }
    if (aborted)
        mixes(slot, 0x41, 4);
    it->there = false;
    if (aborted || (it->is_smart && !disk.smart)) {
        answers_alone(slot, bad(it, 4, 0));
    } else if (it->kind == STORE) {
        stores(slot);
    } else if (it->kind == PAGE) {
        lays_pages(it);
        delivers(slot);
    } else if (meets_unreadable(it, &lba) && it->kind == READ) {
        counted.unread++;
        fails_alone(slot, 0x40, lba);
    } else if (it->kind == READ || it->kind == WRITE) {
        fails_alone(slot, 0x10, first_past(it));
    } else {
        answers_alone(slot, answer_to(it));
    }
    if (!aborted)
        turns_by(it);
}

/* The device takes a control FIS (section 10.4.1): SRST holds it in its reset, and the next FIS without SRST ends that. */
static void controls(uint32_t slot)
{
    if (slots[slot].resets) {
        drop();
        is_reset();
        if (disk.reverts)
            reverts();
        failed = mixed = false;
        signature = PAST;
        soft = HELD;
    } else if (soft == HELD) {
        drop();
        signature = DUE;
        soft = ENDING;
        soft_slot = slot;
    } else {
        slots[slot].there = false;
    }
}

/* Whether bytes may be written there now: they are the next ones of the answer. */
static bool may_write(uint64_t at, uint64_t count, const uint8_t *bytes)
{
    const struct command *it = &slots[answer.slot];
    const struct fis *fis = answer.before.due ? &answer.before : &answer.after;
    const uint32_t place = fis->bytes[0] == 0x41 ? 0 : fis->bytes[0] == 0x5F ? 0x20 : fis->bytes[0] == 0x34 ? 0x40 : fis->bytes[0] == 0x55 ? 0x60 : 0x58;
    if (!answer.before.due && answer.left) {
        const uint64_t room = it->list[it->piece].bytes - it->into, size = room < answer.left ? room : answer.left;
        return at == reach(it->list[it->piece].at) + it->into && count == size && memcmp(bytes, it->bytes + it->used, size) == 0;
    }
    if (!answer.before.due && answer.counts)
        return at == reach(list_base() + 32 * answer.slot + 4) && count == 4 && little(bytes, 4) == (it->writes ? it->moved : it->used);
    return reg.receiving && fis->due && at == reach(fis_base() + place) && count == fis->size && memcmp(bytes, fis->bytes, count) == 0;
}

static void written(uint64_t count)
{
    struct command *it = &slots[answer.slot];
    if (answer.before.due) {
        answer.before.due = false;
    } else if (answer.left) {
        answer.left -= count;
        it->used += count;
        answer.tells = passes(it, count) || answer.tells;
    } else if (answer.counts) {
        answer.counts = false;
    } else {
        answer.after.due = false;
    }
    if (is_over())
        ends();
}
