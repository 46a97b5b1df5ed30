/* Plays bytes as calls of one port, and compares each answer and the whole state with a small shadow of the model: an image, and
   by tag what was asked and where it stands. With clang: `make fuzz`, over libFuzzer. Else `fuzz COUNT` makes the bytes itself. */
#include "ahci.h"
#include <stdio.h>
#include <stdlib.h>
#include <string.h>

#define SECTORS 16u
#define MOST 3u /* sectors of one command */
#define SHARE 0x290u /* of the guest's memory: a table with one entry, and one sector */
#define CHECK(it) do { if (!(it)) { fprintf(stderr, "line %d: %s\n", __LINE__, #it); abort(); } } while (0)

static struct tag {
    uint32_t phase, kind, count, outcome, error;
    uint64_t lba, number, entry, at;
    uint8_t fill, text[MOST * AHCI_SECTOR_BYTES];
} tags[32];
static uint8_t image[SECTORS * AHCI_SECTOR_BYTES];
static uint64_t first, next;
static uint32_t depth;
static bool halted;
static uint32_t announced; /* bits of PxSACT that wait for PxCI */
static bool stopped;       /* whether ST is off */
static ahci_port port;
static uint8_t list[AHCI_LIST_BYTES], windows[32 * SHARE]; /* the guest's memory: each slot reads the sector of its number */

static const uint8_t *input;
static size_t left;
static uint8_t byte(void) { return left ? (left--, *input++) : 0; }

static uint32_t set_of(uint32_t phases)
{
    uint32_t word = 0;
    for (uint32_t tag = 0; tag < 32; tag++)
        word |= (phases >> tags[tag].phase & 1) << tag;
    return word;
}
#define SET(phase) (1u << AHCI_PHASE_##phase)

static uint32_t driven(uint32_t offset)
{
    uint32_t word = 0;
    CHECK(ahci_port_read_register(&port, offset, &word) == AHCI_OK);
    return word;
}

static void compare(void)
{
    ahci_state state;
    CHECK(ahci_port_state(&port, &state) == AHCI_OK);
    CHECK(state.first == first && state.next == next && state.depth == depth && state.sectors == SECTORS && state.halted == halted);
    for (uint32_t tag = 0; tag < 32; tag++)
        CHECK(state.phases[tag] == tags[tag].phase && state.numbers[tag] == (tags[tag].phase == AHCI_PHASE_FREE ? 0 : tags[tag].number));
    CHECK(state.issued == set_of(SET(ISSUED)) && state.accepted == set_of(SET(ACCEPTED)) && state.held == set_of(SET(HELD)));
    CHECK(state.px_sact == set_of(SET(ISSUED) | SET(ACCEPTED) | SET(REJECTED) | SET(BROKEN)));
    CHECK(state.px_ci == set_of(SET(ISSUED) | SET(REJECTED)));
    const bool off = stopped && halted;
    CHECK(driven(0x134) == (off ? 0 : state.px_sact | announced) && driven(0x138) == (off ? 0 : state.px_ci) && driven(0x118) == (off ? 0x4010u : 0xC011u));
}

/* A call that took the place of register writes: nothing is half written then. */
static void end_writes(void)
{
    announced = 0;
    stopped = false;
}

static void submit(void)
{
    static uint8_t data[MOST * AHCI_SECTOR_BYTES];
    uint32_t tag = byte() % 34, kind = byte() % 5, count = byte() % (MOST + 1);
    uint64_t lba = byte() % 20, number = 0;
    if (lba == 19)
        lba = (uint64_t)1 << 48;
    uint8_t fill = byte();
    memset(data, fill, sizeof data);
    uint32_t wanted = tag >= 32 ? AHCI_BAD_TAG : kind > AHCI_WRITE_FUA ? AHCI_BAD_KIND : !count ? AHCI_BAD_COUNT : lba >> 48 ? AHCI_BAD_LBA
        : halted ? AHCI_HALTED : tag >= depth ? AHCI_NO_SUCH_TAG : tags[tag].phase != AHCI_PHASE_FREE ? AHCI_SLOT_OWNED : AHCI_OK;
    bool writes = kind == AHCI_WRITE || kind == AHCI_WRITE_FUA;
    CHECK(ahci_port_submit(&port, tag, kind, lba, count, data, writes ? count * AHCI_SECTOR_BYTES : 0, &number) == wanted);
    if (wanted != AHCI_OK)
        return;
    CHECK(number == next);
    end_writes();
    tags[tag] = (struct tag){ .phase = AHCI_PHASE_ISSUED, .kind = writes ? AHCI_WRITE : AHCI_READ, .count = count, .lba = lba, .number = next++, .fill = fill };
}

static void fails(struct tag *it, uint32_t phase, uint32_t error, uint64_t at)
{
    it->phase = phase;
    it->outcome = AHCI_DID_FAIL;
    it->error = error;
    it->at = at;
    it->entry = next;
    halted = true;
}

static void accept(void)
{
    uint32_t tag = byte() % 34;
    ahci_stepped step;
    uint32_t wanted = tag >= 32 ? AHCI_BAD_TAG : halted ? AHCI_HALTED : tags[tag].phase != AHCI_PHASE_ISSUED ? AHCI_NOT_ISSUED : AHCI_OK;
    CHECK(ahci_port_accept(&port, tag, &step) == wanted);
    if (wanted != AHCI_OK)
        return;
    struct tag *it = &tags[tag];
    bool fits = it->lba + it->count <= SECTORS;
    CHECK(step.first == next && step.count == 1 && step.did == (fits ? AHCI_ACCEPTED : AHCI_FAILED));
    if (fits)
        it->phase = AHCI_PHASE_ACCEPTED;
    else
        fails(it, AHCI_PHASE_REJECTED, 0x10, it->lba > SECTORS ? it->lba : SECTORS);
    next++;
}

static void serve(void)
{
    uint8_t list[3];
    uint32_t count = byte() % 4, seen = 0, wanted = AHCI_OK;
    bool twice = !count;
    ahci_stepped step;
    for (uint32_t i = 0; i < count; i++) {
        list[i] = byte() % 34;
        if (list[i] >= 32 || tags[list[i]].phase != AHCI_PHASE_ACCEPTED)
            wanted = AHCI_NOT_ACCEPTED;
        else if (seen >> list[i] & 1)
            twice = true;
        else
            seen |= 1u << list[i];
    }
    wanted = halted ? AHCI_HALTED : wanted ? wanted : twice ? AHCI_BAD_TAGS : AHCI_OK;
    CHECK(ahci_port_serve(&port, list, count, &step) == wanted);
    if (wanted != AHCI_OK)
        return;
    CHECK(step.first == next && step.count == count && step.did == AHCI_COMPLETED);
    for (uint32_t i = 0; i < count; i++) {
        struct tag *it = &tags[list[i]];
        size_t at = it->lba * AHCI_SECTOR_BYTES, size = it->count * AHCI_SECTOR_BYTES;
        if (it->kind == AHCI_WRITE)
            memset(image + at, it->fill, size);
        else
            memcpy(it->text, image + at, size);
        it->phase = AHCI_PHASE_DONE;
        it->outcome = it->kind == AHCI_WRITE ? AHCI_DID_WRITE : AHCI_DID_READ;
        it->entry = next++;
    }
}

static void fail(void)
{
    uint32_t tag = byte() % 34;
    uint8_t error = byte();
    uint64_t lba = byte() % 20;
    ahci_stepped step;
    uint32_t wanted = tag >= 32 ? AHCI_BAD_TAG : halted ? AHCI_HALTED : tags[tag].phase != AHCI_PHASE_ACCEPTED ? AHCI_NOT_ACCEPTED
        : lba < tags[tag].lba || lba >= tags[tag].lba + tags[tag].count ? AHCI_OUTSIDE_COMMAND : AHCI_OK;
    CHECK(ahci_port_fail(&port, tag, error, lba, &step) == wanted);
    if (wanted != AHCI_OK)
        return;
    CHECK(step.first == next && step.count == 1 && step.did == AHCI_FAILED);
    fails(&tags[tag], AHCI_PHASE_BROKEN, error, lba);
    next++;
}

static void recovers(uint32_t tag)
{
    CHECK(tag < 32 && (tags[tag].phase == AHCI_PHASE_REJECTED || tags[tag].phase == AHCI_PHASE_BROKEN));
    for (struct tag *it = tags; it < tags + 32; it++)
        if (it->phase == AHCI_PHASE_ISSUED || it->phase == AHCI_PHASE_ACCEPTED)
            it->phase = AHCI_PHASE_HELD;
    tags[tag].phase = AHCI_PHASE_DONE;
    halted = false;
    next++;
}

static void recover(void)
{
    uint32_t tag = 99;
    CHECK(ahci_port_recover(&port, &tag) == (halted ? AHCI_OK : AHCI_NOT_HALTED));
    if (halted) {
        recovers(tag);
        end_writes();
    }
}

static uint32_t writes(uint32_t offset, uint32_t word, ahci_written *did)
{
    *did = (ahci_written){ 9, 9, 9 };
    return ahci_port_write_register(&port, offset, word, list, sizeof list, windows, sizeof windows, did);
}

/* PxCMD: ST off and on. */
static void restart(void)
{
    ahci_written did;
    if (byte() % 2) {
        CHECK(writes(0x118, 0x10, &did) == (halted ? AHCI_OK : AHCI_NOT_HALTED) && did.did == (halted ? AHCI_WROTE_WORD : 9u));
        stopped = stopped || halted;
        announced = halted ? 0 : announced;
        return;
    }
    bool back = stopped && halted;
    CHECK(writes(0x118, 0x11, &did) == AHCI_OK && did.did == (back ? AHCI_WROTE_START : AHCI_WROTE_WORD));
    stopped = false;
    if (back)
        recovers(did.tag);
}

/* PxSACT: what is announced. */
static void announce(void)
{
    ahci_written did;
    uint32_t word = byte() % 32, active = set_of(SET(ISSUED) | SET(ACCEPTED) | SET(REJECTED) | SET(BROKEN));
    CHECK(writes(0x134, word, &did) == (halted ? AHCI_HALTED : AHCI_OK));
    if (!halted)
        announced |= word & ~active & (uint32_t)(((uint64_t)1 << depth) - 1);
}

/* PxCI: the commands of newly set bits, the lowest slot first, up to one whose slot is owned. */
static void command(void)
{
    ahci_written did;
    uint32_t word = byte() % 32, fresh = word & ~set_of(SET(ISSUED) | SET(REJECTED));
    uint32_t status = writes(0x138, word, &did);
    if (halted || (fresh & ~announced) != 0) {
        CHECK(status == (halted ? AHCI_HALTED : AHCI_NOT_QUEUED) && did.did == 9);
        return;
    }
    for (uint32_t slot = 0; slot < 5; slot++) {
        struct tag *it = &tags[slot];
        if (!(fresh >> slot & 1))
            continue;
        if (it->phase != AHCI_PHASE_FREE && it->phase != AHCI_PHASE_HELD) {
            CHECK(status == AHCI_SLOT_OWNED && did.did == AHCI_WROTE_SOME && did.tag == slot);
            return;
        }
        if (it->phase == AHCI_PHASE_FREE)
            *it = (struct tag){ .kind = AHCI_READ, .count = 1, .lba = slot, .number = next };
        it->phase = AHCI_PHASE_ISSUED;
        announced &= ~(1u << slot);
        next++;
    }
    CHECK(status == AHCI_OK && did.did == AHCI_WROTE_COMMANDS && did.slots == fresh);
}

static void reissue(void)
{
    uint32_t tag = byte() % 34;
    uint32_t wanted = tag >= 32 ? AHCI_BAD_TAG : halted ? AHCI_HALTED : tags[tag].phase != AHCI_PHASE_HELD ? AHCI_NOT_HELD : AHCI_OK;
    CHECK(ahci_port_reissue(&port, tag) == wanted);
    if (wanted == AHCI_OK) {
        end_writes();
        tags[tag].phase = AHCI_PHASE_ISSUED;
        next++;
    }
}

static void collect(void)
{
    static uint8_t out[MOST * AHCI_SECTOR_BYTES];
    uint32_t tag = byte() % 34, way = byte();
    struct tag none = { 0 }, *it = tag < 32 ? &tags[tag] : &none;
    uint64_t number = it->number + (way % 8 == 7);
    size_t size = it->kind == AHCI_READ ? it->count * AHCI_SECTOR_BYTES : 0, room = way % 8 == 6 && size ? size - 1 : size;
    ahci_reply reply;
    uint32_t wanted = tag >= 32 ? AHCI_BAD_TAG : it->phase == AHCI_PHASE_FREE || number != it->number ? AHCI_STRANGER
        : it->phase != AHCI_PHASE_DONE ? AHCI_NOT_YET : room < size ? AHCI_BUFFER_TOO_SMALL : AHCI_OK;
    CHECK(ahci_port_collect(&port, tag, number, &reply, out, room) == wanted);
    if (wanted != AHCI_OK)
        return;
    bool failed = it->outcome == AHCI_DID_FAIL;
    CHECK(reply.number == it->number && reply.entry == it->entry && reply.outcome == it->outcome);
    CHECK(reply.error == (failed ? it->error : 0) && reply.lba == (failed ? it->at : 0));
    CHECK(reply.bytes == (it->outcome == AHCI_DID_READ ? size : 0) && memcmp(out, it->text, reply.bytes) == 0);
    it->phase = AHCI_PHASE_FREE;
    next++;
}

static void others(void)
{
    uint64_t entries;
    if (byte() % 2) {
        uint32_t wanted = halted ? AHCI_HALTED : set_of(SET(ISSUED) | SET(ACCEPTED)) ? AHCI_QUEUE_BUSY : AHCI_OK;
        CHECK(ahci_port_flush(&port) == wanted);
        next += wanted == AHCI_OK;
    } else {
        bool busy = set_of(~SET(FREE)) != 0;
        CHECK(ahci_port_trim(&port, &entries) == (busy ? AHCI_BUSY : AHCI_OK));
        if (!busy) {
            CHECK(entries == next - first);
            first = next;
        }
    }
}

/* Whether an event may come next, by the shadow. */
static bool may(const ahci_entry *e)
{
    struct tag none = { 0 }, *it = e->tag < 32 ? &tags[e->tag] : &none;
    bool fits = it->lba + it->count <= SECTORS;
    switch (e->kind) {
    case AHCI_EVENT_READ:
    case AHCI_EVENT_WRITE: return !halted && e->tag < depth && it->phase == AHCI_PHASE_FREE && e->sectors && e->sectors <= AHCI_MOST_COUNT && !(e->lba >> 48);
    case AHCI_EVENT_ACCEPT: return !halted && it->phase == AHCI_PHASE_ISSUED && fits;
    case AHCI_EVENT_COMPLETE: return !halted && it->phase == AHCI_PHASE_ACCEPTED;
    case AHCI_EVENT_FAIL:
        if (it->phase == AHCI_PHASE_ISSUED)
            return !halted && !fits && e->error == 0x10 && e->lba == (it->lba > SECTORS ? it->lba : SECTORS);
        return !halted && it->phase == AHCI_PHASE_ACCEPTED && e->error < 256 && e->lba >= it->lba && e->lba - it->lba < it->count;
    case AHCI_EVENT_RECOVER: return it->phase == AHCI_PHASE_REJECTED || it->phase == AHCI_PHASE_BROKEN;
    case AHCI_EVENT_REISSUE: return !halted && it->phase == AHCI_PHASE_HELD;
    case AHCI_EVENT_COLLECT: return it->phase == AHCI_PHASE_DONE;
    case AHCI_EVENT_IDENTIFY:
    case AHCI_EVENT_FLUSH: return !halted && !set_of(SET(ISSUED) | SET(ACCEPTED));
    case AHCI_EVENT_ZERO: return !halted && !set_of(SET(ISSUED) | SET(ACCEPTED)) && e->sectors && e->lba <= SECTORS && e->sectors <= SECTORS - e->lba;
    default: return false;
    }
}

/* The port's journal can come about, and each event may follow it where the shadow says so. */
static void judge(uint32_t seed)
{
    static ahci_entry events[2048];
    static const uint64_t lbas[] = { 0, 3, 16, 17, 18, (uint64_t)1 << 48 };
    static const uint32_t errors[] = { 0x10, 0x40, 0x140 };
    size_t count = (size_t)(next - first), bad = count;
    CHECK(count < sizeof events / sizeof *events);
    for (size_t i = 0; i < count; i++)
        CHECK(ahci_port_entry(&port, first + i, &events[i]) == AHCI_OK);
    CHECK(ahci_journal_check(SECTORS, depth, events, count, &bad) == AHCI_OK);
    for (uint32_t i = 0; i < 48; i++) {
        seed = seed * 1664525 + 1013904223;
        const uint32_t pick = seed >> 8, tag = pick % 7;
        events[count] = (ahci_entry){
            .kind = i % 13, .tag = tag < 5 ? tag : tag + 26, .lba = lbas[pick / 7 % 6], .error = errors[pick / 42 % 3], .sectors = pick / 126 % 4,
        };
        bad = 7777;
        uint32_t status = ahci_journal_check(SECTORS, depth, events, count + 1, &bad);
        bool well = may(&events[count]);
        CHECK(status == (well ? AHCI_OK : AHCI_NOT_ALLOWED) && bad == (well ? 7777 : count));
    }
}

int LLVMFuzzerTestOneInput(const uint8_t *bytes, size_t count);
/* The windows of slots 0 to 4. */
static void lay_out(void)
{
    for (uint32_t slot = 0; slot < 5; slot++) {
        uint8_t *header = list + AHCI_HEADER_BYTES * slot, *table = windows + SHARE * slot;
        const uint8_t fis[13] = { 0x27, 0x80, 0x60, 1, (uint8_t)slot, 0, 0, 0x40, 0, 0, 0, 0, (uint8_t)(slot << 3) };
        header[0] = 5;
        header[2] = 1;
        header[11] = table[0x83] = (uint8_t)((0x10000000 + 0x4000000 * slot) >> 24);
        memcpy(table, fis, sizeof fis);
        table[0x80] = 0x90;
        table[0x8C] = 0xFF;
        table[0x8D] = 0x01;
    }
}

int LLVMFuzzerTestOneInput(const uint8_t *bytes, size_t count)
{
    static void (*const calls[])(void) = { submit, submit, accept, accept, serve, serve, collect, collect, fail, recover, reissue, others, announce, command, restart };
    uint8_t sector[AHCI_SECTOR_BYTES];
    input = bytes;
    left = count;
    lay_out();
    memset(tags, 0, sizeof tags);
    memset(image, 0, sizeof image);
    halted = stopped = false;
    announced = 0;
    depth = byte() % 32 + 1;
    first = next = byte();
    CHECK(ahci_port_resume(&port, image, sizeof image, depth, first) == AHCI_OK);
    while (left) {
        calls[byte() % (sizeof calls / sizeof *calls)]();
        compare();
    }
    judge((uint32_t)first ^ depth << 8 ^ (uint32_t)next << 16);
    for (uint64_t lba = 0; lba < SECTORS; lba++)
        CHECK(ahci_port_copy(&port, lba, sector, sizeof sector) == AHCI_OK && memcmp(sector, image + lba * sizeof sector, sizeof sector) == 0);
    CHECK(ahci_port_free(&port) == AHCI_OK);
    return 0;
}

#ifndef LIBFUZZER
/* Bytes by a generator of 64 bits (xorshift); most tags are low, so that they meet. */
int main(int count, char **arguments)
{
    unsigned long runs = count == 2 ? strtoul(arguments[1], NULL, 10) : 1000;
    uint64_t word = 88172645463325252;
    for (unsigned long run = 0; run < runs; run++) {
        uint8_t bytes[400];
        for (size_t i = 0; i < sizeof bytes; i++) {
            word ^= word << 13;
            word ^= word >> 7;
            word ^= word << 17;
            bytes[i] = word >> 60 ? (uint8_t)(word >> 32 & 15) : (uint8_t)(word >> 32);
        }
        LLVMFuzzerTestOneInput(bytes, sizeof bytes);
    }
    printf("%lu runs of 400 bytes: the shadow has seen no difference\n", runs);
    return 0;
}
#endif
