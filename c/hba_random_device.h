/* What the device does in a random run, each call with what the shadow says of it: bytes that are moved, steps that are taken or lack memory, commands that fail, FISes that no
   command asks for, and a journal that is trimmed. The bytes of the run choose. */
#include "hba_shadow_next.h"
#include "refusing.h"

static const uint8_t *input;
static size_t left;
static uint8_t byte(void) { return left ? (left--, *input++) : 0; }
static uint32_t word(void) { uint32_t a = byte(), b = byte(), c = byte(); return a | b << 8 | c << 16 | (uint32_t)byte() << 24; }

/* Moves what is read or written next, or says that it is no memory. */
static void moves(bool gone)
{
    static uint8_t bytes[SECTORS * AHCI_SECTOR_BYTES];
    uint64_t at = look.address, count = look.length;
    uint8_t *place = memory(at, count);
    if (fetch.on) {
        CHECK(count == next_read(&at) && at == look.address);
        CHECK(ahci_hba_supply(&hba, bytes, (size_t)count + 1) == AHCI_WRONG_LENGTH);
    } else if (answer.on) {
        CHECK(count <= sizeof bytes && ahci_hba_bytes(&hba, bytes, (size_t)count + 1) == AHCI_WRONG_LENGTH);
        CHECK(ahci_hba_bytes(&hba, bytes, (size_t)count) == AHCI_OK && may_write(at, count, bytes));
    }
    if (look.want == AHCI_WANT_NOTHING) {
        CHECK(ahci_hba_supply(&hba, bytes, 0) == AHCI_OK && ahci_hba_written(&hba) == AHCI_OK && ahci_hba_unmapped(&hba) == AHCI_OK && ahci_hba_spoiled(&hba) == AHCI_OK);
    } else if (place && gone && byte() % 2) {
        CHECK(ahci_hba_spoiled(&hba) == AHCI_OK);
        fatal(HBDS);
    } else if (!place || gone) {
        CHECK(ahci_hba_unmapped(&hba) == AHCI_OK);
        fatal(HBFS);
    } else if (fetch.on) {
        CHECK(ahci_hba_supply(&hba, place, (size_t)count) == AHCI_OK);
        reads(place, count);
    } else {
        memcpy(place, bytes, (size_t)count);
        CHECK(ahci_hba_written(&hba) == AHCI_OK);
        written(count);
    }
    follow(0);
}

/* Pages of a disk over a base that aren't named have what they had when the journal began. */
static void compare_touched(void)
{
    uint32_t pages[SECTORS / 8];
    uint64_t touched = 0;
    bool named[SECTORS / 8] = { false };
    CHECK(ahci_hba_touched(&hba, pages, SECTORS / 8, &touched) == (has_base ? AHCI_OK : AHCI_BAD_KIND));
    for (uint64_t at = 0; at < touched; at++) {
        CHECK(8 * pages[at] < has);
        named[pages[at]] = true;
    }
    for (uint32_t at = 0; has_base && at < has * AHCI_SECTOR_BYTES; at++)
        CHECK(named[at / AHCI_SECTOR_BYTES / 8] || image[at] == beginning[at]);
}

/* The disk's image is the shadow's. */
static void compare_image(void)
{
    uint8_t sector[AHCI_SECTOR_BYTES];
    for (uint64_t lba = 0; lba < has; lba++)
        CHECK(ahci_hba_copy(&hba, lba, sector, sizeof sector) == AHCI_OK && memcmp(sector, image + lba * sizeof sector, sizeof sector) == 0);
    compare_touched();
}

/* The first slot whose next step is this one, or any. */
static uint32_t slot_at(uint32_t step)
{
    for (uint32_t slot = 0; slot < 32; slot++)
        if (look.next[slot] == step)
            return slot;
    return byte() % 32;
}

/* The sectors that the next step of a slot makes zeros, which no other step has. */
static void compare_range(uint32_t slot)
{
    struct range found = { 77, 77 };
    const struct range due = slot < 32 && look.next[slot] == AHCI_STEP_EXECUTE ? range_due(slot) : no_range;
    const uint32_t status = ahci_hba_trim_range(&hba, slot, &found.lba, &found.sectors);
    CHECK(status == (slot > 31 ? AHCI_BAD_TAG : AHCI_OK));
    CHECK(slot > 31 ? found.lba == 77 && found.sectors == 77 : found.sectors == due.sectors && (!due.sectors || found.lba == due.lba));
}

/* Takes a step, of which a request for memory may be refused: whether it is taken. One that lacks memory has changed nothing; but one may do with less. */
static bool is_stepped(uint32_t slot, uint32_t next, uint64_t *entries)
{
    ahci_state before, after;
    CHECK(ahci_hba_port(&hba, &before) == AHCI_OK);
    asked = 0;
    refused_at = byte() % 16 ? -1 : byte() % 3;
    const uint32_t status = ahci_hba_step(&hba, slot, entries);
    const bool refused = refused_at >= 0 && asked > refused_at, lacks = refused && next != AHCI_STEP_NONE && status == AHCI_OUT_OF_MEMORY;
    refused_at = -1;
    CHECK(lacks || status == (slot > 31 ? AHCI_BAD_TAG : next == AHCI_STEP_NONE ? AHCI_NOT_READY : AHCI_OK));
    if (lacks) {
        counted.lacked++;
        counted.lacked_zeros += next == AHCI_STEP_EXECUTE && range_due(slot).sectors;
        CHECK(*entries == 0 && ahci_hba_port(&hba, &after) == AHCI_OK && memcmp(&before, &after, sizeof before) == 0);
        compare_image();
    }
    return status == AHCI_OK;
}

/* The next step of a slot. */
static void steps(uint32_t slot)
{
    uint64_t entries = 0, lba;
    const uint32_t next = slot < 32 ? look.next[slot] : AHCI_STEP_NONE;
    struct command *it = &slots[slot % 32];
    compare_range(slot);
    if (!is_stepped(slot, next, &entries))
        return;
    CHECK(entries == 0 || next == AHCI_STEP_CONTROL || next == AHCI_STEP_RECOVER);
    switch (next) {
    case AHCI_STEP_FETCH:
        fetch.on = true;
        fetch.slot = reg.ccs = slot;
        fetch.phase = 0;
        reg.first = (slot + 1) % can.ncs;
        break;
    case AHCI_STEP_SEND: it->sent = true; break;
    case AHCI_STEP_ACCEPT:
        it->accepted = true;
        needs_medium(it);
        if (it->kind == QUEUE && is_past(it))
            fails(slot, 0x10, first_past(it), true);
        else if (it->kind == QUEUE)
            answers_alone(slot, d2h(0, 0x40, 0, 0));
        break;
    case AHCI_STEP_SERVE:
        if (meets_unreadable(it, &lba)) {
            counted.unread++;
            fails(slot, 0x40, lba, false);
            break;
        }
        if (it->writes)
            turns_sectors(it->lba, end_of(it), false);
        follow(0);
        it->there = it->sent = false;
        transfer.on = true;
        transfer.begun = false;
        transfer.slot = slot;
        break;
    case AHCI_STEP_DELIVER:
        if (transfer.begun)
            moves_on(slot);
        else
            delivers(slot);
        break;
    case AHCI_STEP_EXECUTE: executes(slot); break;
    case AHCI_STEP_CONTROL: controls(slot); break;
    case AHCI_STEP_RECOVER:
        failed = it->there = false;
        memcpy(it->bytes, page, sizeof page);
        delivers(slot);
        break;
    }
    follow(entries);
}

/* The disk fails a queued command at one of its sectors, or at one beside them, which it can't. */
static void fail(void)
{
    const uint32_t slot = byte() % 4 ? slot_at(AHCI_STEP_SERVE) : byte() % 34;
    const uint8_t error = byte();
    const struct command *it = &slots[slot % 32];
    const uint64_t lba = it->lba + byte() % 6 - 1;
    const bool fits = slot < 32 && look.next[slot] == AHCI_STEP_SERVE && it->kind == QUEUE && lba >= it->lba && lba < it->lba + it->sectors;
    CHECK(ahci_hba_fail(&hba, slot, error, lba) == (slot > 31 ? AHCI_BAD_TAG : fits ? AHCI_OK : AHCI_NOT_READY));
    if (fits)
        fails(slot, error, lba, false);
    follow(0);
}

/* The disk fails a command that is not queued, at any LBA. */
static void refuse(void)
{
    const uint32_t slot = byte() % 4 ? slot_at(AHCI_STEP_SEND) : byte() % 34;
    const struct command *it = &slots[slot % 32];
    const uint8_t pick = byte();
    const uint64_t lba = pick % 16 == 0 ? (uint64_t)1 << 48 : pick % 16 == 1 ? byte() : (it->lba + pick / 16 % 8 - 1) & 0xFFFFFFFFFFFF;
    const bool fits = slot < 32 && is_ready() && it->there && !it->sent && !it->queued;
    CHECK(ahci_hba_refuse(&hba, slot, 0x40, lba) == (slot > 31 ? AHCI_BAD_TAG : lba >> 48 ? AHCI_BAD_LBA : fits ? AHCI_OK : AHCI_NOT_READY));
    if (fits && !(lba >> 48)) {
        needs_medium(it);
        fails_alone(slot, 0x40, lba);
    }
    follow(0);
}

/* It ends one with any status, in place of doing it. */
static void end(void)
{
    static const uint8_t statuses[] = { 0x61, 0x60, 0x50, 0xD0, 0x58, 0x41 };
    const uint32_t slot = byte() % 4 ? slot_at(AHCI_STEP_SEND) : byte() % 34;
    const struct command *it = &slots[slot % 32];
    const uint8_t pick = byte(), error = byte(), status = byte() % 4 ? statuses[pick % 6] : byte();
    const uint64_t lba = pick % 16 == 7 ? (uint64_t)1 << 48 : (it->lba + pick / 16 % 8 - 1) & 0xFFFFFFFFFFFF;
    const bool fits = slot < 32 && is_ready() && it->there && !it->sent && !it->queued;
    CHECK(ahci_hba_end(&hba, slot, status, error, lba) == (slot > 31 ? AHCI_BAD_TAG : lba >> 48 ? AHCI_BAD_LBA : fits ? AHCI_OK : AHCI_NOT_READY));
    if (fits && !(lba >> 48)) {
        counted.ended++;
        needs_medium(it);
        ends_alone(slot, status, error, lba);
    }
    follow(0);
}

/* The signature of a disk, or of what is none, or of no kind that there is. */
static void sign(void)
{
    static const uint32_t signatures[] = { 0x00000101, 0xEB140101, 0xC33C0101, 0x96690101 };
    const uint8_t pick = byte();
    const uint32_t kind = pick % 4 ? 0 : pick / 4 % 5;
    CHECK(!look.sign || (reg.link == UP && look.want == AHCI_WANT_NOTHING));
    if (kind > 3)
        CHECK(ahci_hba_sign_as(&hba, pick % 8 ? 4 : word() | 4) == AHCI_BAD_KIND);
    else
        CHECK((kind || pick % 8 ? ahci_hba_sign_as(&hba, kind) : ahci_hba_sign(&hba)) == (look.sign ? AHCI_OK : AHCI_NOT_READY));
    if (look.sign && kind < 4)
        signs(signatures[kind]);
    follow(0);
}

/* A FIS that no command asks for: it names no tag, has no fault, or is of a type that Serial ATA has not. */
static void send(void)
{
    static const uint8_t bytes[32] = { 0x55, 1, 2, 3, 4, 5, 6, 7, 8, 9, 10, 11, 12, 13, 14, 15, 16, 17, 18, 19, 20, 21, 22, 23, 24, 25, 26, 27 };
    const uint8_t pick = byte();
    const bool may = accepts() && look.want == AHCI_WANT_NOTHING && !transfer.on && !answer.on;
    struct fis fis = set_bits(0x40, 0, 0);
    bool sent = may;
    switch (pick % 3) {
    case 0:
        CHECK(ahci_hba_receive_bits(&hba, pick & 12) == (may ? AHCI_OK : AHCI_NOT_READY));
        fis.bytes[1] |= pick & 12 ? 0x80 : 0;
        break;
    case 1:
        sent = may && !is_busy_with_one();
        fis = d2h(0x40, 0x50, 0, 0);
        CHECK(ahci_hba_receive_register(&hba) == (sent ? AHCI_OK : AHCI_NOT_READY));
        break;
    default:
        fis.size = 1 + pick / 8 % 28;
        memcpy(fis.bytes, bytes, sizeof fis.bytes);
        CHECK(ahci_hba_receive_unknown(&hba, bytes, 29 + pick % 3) == AHCI_WRONG_LENGTH);
        CHECK(ahci_hba_receive_unknown(&hba, bytes, fis.size) == (may ? AHCI_OK : AHCI_NOT_READY));
    }
    if (sent)
        sends(fis);
    follow(0);
}

/* Whether the queue has a request: a command that was sent, or one that has failed. */
static bool is_busy(void)
{
    bool busy = failed;
    for (uint32_t slot = 0; slot < 32; slot++)
        busy = busy || (slots[slot].there && slots[slot].sent);
    return busy;
}

/* The journal is discarded, and nothing else changes: no register, no step, no byte that is moved next, and nothing of the queue. */
static void trim(void)
{
    static uint32_t words[0x50];
    ahci_hba_state was = look;
    ahci_state before, after;
    ahci_entry entry;
    uint64_t entries = 77;
    const bool busy = is_busy();
    compare_image();
    for (uint32_t at = 0; at < 0x50; at++)
        words[at] = driven(4 * at);
    CHECK(ahci_hba_port(&hba, &before) == AHCI_OK);
    CHECK(ahci_hba_trim(&hba, &entries) == (busy ? AHCI_BUSY : AHCI_OK));
    CHECK(entries == (busy ? 77 : before.next - before.first));
    CHECK(ahci_hba_port(&hba, &after) == AHCI_OK && ahci_hba_look(&hba, &look) == AHCI_OK);
    if (!busy) {
        CHECK(before.first == before.next || ahci_hba_entry(&hba, before.first, &entry) == AHCI_NO_SUCH_ENTRY);
        before.first = before.next;
        counted.trims++;
    }
    CHECK(memcmp(&before, &after, sizeof before) == 0 && memcmp(&was, &look, sizeof was) == 0);
    for (uint32_t at = 0; at < 0x50; at++)
        CHECK(words[at] == driven(4 * at));
    follow(busy ? 0 : entries);
    compare_image();
}
