/* A driver's register writes and reads, in the order of section 3.3 and 6.2.2, against values that were worked out by hand: a queue
   by PxSACT and PxCI, the interrupt by PxIS, and the way back by PxCMD. The guest's memory has a window of one sector for some slots. */
#include "ahci.h"
#include <stdio.h>
#include <stdlib.h>
#include <string.h>

#define CHECK(it) do { if (!(it)) { printf("line %d: %s\n", __LINE__, #it); exit(1); } } while (0)
#define SHARE 0x290u /* a table with one entry, and one sector */
enum { CLB = 0x100, IS = 0x110, IE = 0x114, CMD = 0x118, TFD = 0x120, SACT = 0x134, CI = 0x138 };

static ahci_port port = AHCI_PORT_EMPTY;
static uint8_t list[AHCI_LIST_BYTES], windows[32 * SHARE];

/* The command of a slot: a read of one sector, or a write of bytes that are all `fill`. */
static void ask(uint32_t slot, bool is_write, uint8_t lba, uint8_t fill)
{
    uint8_t *header = list + AHCI_HEADER_BYTES * slot, *table = windows + SHARE * slot;
    const uint32_t base = 0x10000000 + 0x4000000 * slot;
    header[0] = (uint8_t)(5 | is_write << 6); /* CFL 5, W */
    header[2] = 1;                            /* PRDTL */
    header[11] = (uint8_t)(base >> 24);       /* CTBA: the low 24 bits are 0 */
    const uint8_t fis[13] = { 0x27, 0x80, is_write ? 0x61 : 0x60, 1, lba, 0, 0, 0x40, 0, 0, 0, 0, (uint8_t)(slot << 3) };
    memcpy(table, fis, sizeof fis);
    table[0x80] = 0x90;                       /* DBA: after the table */
    table[0x83] = (uint8_t)(base >> 24);
    table[0x8C] = 0xFF;                       /* DBC: 512 bytes less one */
    table[0x8D] = 0x01;
    memset(table + 0x90, fill, AHCI_SECTOR_BYTES);
}

static ahci_written written;
static uint32_t status_of(uint32_t offset, uint32_t word)
{
    return ahci_port_write_register(&port, offset, word, list, sizeof list, windows, sizeof windows, &written);
}

/* A write is taken, and did this. */
static void takes(int line, uint32_t offset, uint32_t word, uint32_t did, uint32_t slots, uint32_t tag)
{
    uint32_t status = status_of(offset, word);
    if (status != AHCI_OK || written.did != did || written.slots != slots || written.tag != tag) {
        printf("line %d: status %u, did %u, slots %08x, tag %u\n", line, (unsigned)status, (unsigned)written.did, (unsigned)written.slots, (unsigned)written.tag);
        exit(1);
    }
}

/* A write is refused, and neither the port nor *done has changed. */
static void refuses(int line, uint32_t offset, uint32_t word, uint32_t wanted)
{
    ahci_state before, after;
    ahci_written untouched = { 9, 9, 9 };
    const uint32_t sact_offset = SACT, cmd_offset = CMD;
    uint32_t sact, cmd, sact_after, cmd_after;
    CHECK(ahci_port_state(&port, &before) == AHCI_OK && ahci_port_read_register(&port, sact_offset, &sact) == AHCI_OK && ahci_port_read_register(&port, cmd_offset, &cmd) == AHCI_OK);
    written = untouched;
    uint32_t status = status_of(offset, word);
    CHECK(ahci_port_state(&port, &after) == AHCI_OK && ahci_port_read_register(&port, sact_offset, &sact_after) == AHCI_OK && ahci_port_read_register(&port, cmd_offset, &cmd_after) == AHCI_OK);
    if (status != wanted || memcmp(&before, &after, sizeof before) != 0 || memcmp(&written, &untouched, sizeof written) != 0 || sact != sact_after || cmd != cmd_after) {
        printf("line %d: status %u, or something has changed\n", line, (unsigned)status);
        exit(1);
    }
}

/* A write of PxCI is refused at a slot. */
static void stops(int line, uint32_t word, uint32_t wanted, uint32_t slot)
{
    uint32_t status = status_of(CI, word);
    if (status != wanted || written.did != AHCI_WROTE_SOME || written.slots != 0 || written.tag != slot) {
        printf("line %d: status %u, did %u, tag %u\n", line, (unsigned)status, (unsigned)written.did, (unsigned)written.tag);
        exit(1);
    }
}

static void reads(int line, uint32_t offset, uint32_t wanted)
{
    uint32_t word = 0, status = ahci_port_read_register(&port, offset, &word);
    if (status != AHCI_OK || word != wanted) {
        printf("line %d: status %u, word %08x\n", line, (unsigned)status, (unsigned)word);
        exit(1);
    }
}

#define NOTES(offset, word) takes(__LINE__, offset, word, AHCI_WROTE_WORD, 0, 0)
#define COMMANDS(word, slots) takes(__LINE__, CI, word, AHCI_WROTE_COMMANDS, slots, 0)
#define STARTS(word, tag) takes(__LINE__, CMD, word, AHCI_WROTE_START, 0, tag)
#define REFUSES(offset, word, status) refuses(__LINE__, offset, word, status)
#define STOPS(word, status, slot) stops(__LINE__, word, status, slot)
#define READS(offset, word) reads(__LINE__, offset, word)

static void serves(uint8_t tag)
{
    ahci_stepped step;
    CHECK(ahci_port_accept(&port, tag, &step) == AHCI_OK && step.did == AHCI_ACCEPTED);
    CHECK(ahci_port_serve(&port, &tag, 1, &step) == AHCI_OK);
}

static uint8_t byte_of(uint64_t lba)
{
    uint8_t sector[AHCI_SECTOR_BYTES];
    CHECK(ahci_port_copy(&port, lba, sector, sizeof sector) == AHCI_OK);
    return sector[511];
}

/* Commands of slots 0 and 1; then 0, which is done and not collected, 2, whose window is of zeros, and 3. */
static void queue(void)
{
    ahci_reply reply;
    READS(CMD, 0xC011);
    REFUSES(CI, 1, AHCI_NOT_QUEUED);
    NOTES(SACT, 3);
    READS(SACT, 3);
    READS(CI, 0);
    COMMANDS(3, 3);
    READS(CI, 3);
    COMMANDS(1, 0);
    serves(0);
    READS(CI, 2);
    CHECK(byte_of(3) == 0xAA);
    READS(SACT, 2);
    READS(IS, 8); /* SDBS; the FIS that accepts has I 0 */
    NOTES(IS, 8);
    READS(IS, 0);
    NOTES(SACT, 0x1F); /* slot 1 is active already, and the port has no slot 4 */
    READS(SACT, 0x0F);
    REFUSES(CI, 0x10, AHCI_NOT_QUEUED);
    STOPS(1, AHCI_SLOT_OWNED, 0);
    CHECK(ahci_port_collect(&port, 0, 0, &reply, list, 0) == AHCI_OK && reply.outcome == AHCI_DID_WRITE);
    STOPS(0x0D, AHCI_BAD_HEADER, 2); /* slot 0 comes before slot 2, and slot 3 after it */
    READS(CI, 3);
    READS(SACT, 0x0F);
    COMMANDS(8, 8);
    READS(CI, 0x0B);
    serves(3);
    CHECK(byte_of(5) == 0xBB);
    READS(SACT, 7);
}

/* Tag 1 fails, tag 3 is held, and both go on by PxCMD, PxSACT and PxCI. */
static void way_back(void)
{
    ahci_stepped step;
    ahci_reply reply;
    uint8_t out[AHCI_SECTOR_BYTES];
    uint64_t first;
    ahci_state state;
    CHECK(ahci_port_state(&port, &state) == AHCI_OK);
    first = state.next;
    NOTES(SACT, 0x0A);
    COMMANDS(0x0A, 0x0A);
    CHECK(ahci_port_accept(&port, 1, &step) == AHCI_OK);
    REFUSES(CMD, 0x10, AHCI_NOT_HALTED);
    NOTES(CMD, 0x11);
    CHECK(ahci_port_fail(&port, 1, 0x40, 3, &step) == AHCI_OK);
    READS(TFD, 0x4041);
    REFUSES(SACT, 1, AHCI_HALTED);
    REFUSES(CI, 1, AHCI_HALTED);
    NOTES(CMD, 0x11); /* ST was not off */
    READS(CMD, 0xC011);
    NOTES(CMD, 0x10);
    READS(CMD, 0x4010);
    READS(SACT, 0);
    READS(CI, 0);
    STARTS(0x1F, 1); /* with SUD, POD and CLO, which the port has not */
    READS(CMD, 0xC011);
    READS(TFD, 0x40);
    READS(SACT, 0);
    NOTES(SACT, 8);
    COMMANDS(8, 8); /* held, and issued again */
    serves(3);
    CHECK(ahci_port_collect(&port, 1, first, &reply, out, sizeof out) == AHCI_OK && reply.outcome == AHCI_DID_FAIL && reply.error == 0x40);
    CHECK(ahci_port_collect(&port, 3, first + 1, &reply, out, 0) == AHCI_OK && reply.outcome == AHCI_DID_WRITE);
    READS(SACT, 0);
}

/* The command of tag 0 fails at its sector. */
static void fails(void)
{
    ahci_stepped step;
    uint64_t number;
    CHECK(ahci_port_submit(&port, 0, AHCI_READ, 3, 1, NULL, 0, &number) == AHCI_OK);
    CHECK(ahci_port_accept(&port, 0, &step) == AHCI_OK && ahci_port_fail(&port, 0, 0x40, 3, &step) == AHCI_OK);
}

static void recovers(void)
{
    uint32_t tag = 9;
    ahci_state state;
    ahci_reply reply;
    uint8_t out[AHCI_SECTOR_BYTES];
    CHECK(ahci_port_state(&port, &state) == AHCI_OK);
    CHECK(ahci_port_recover(&port, &tag) == AHCI_OK && tag == 0);
    CHECK(ahci_port_collect(&port, 0, state.next - 3, &reply, out, sizeof out) == AHCI_OK && reply.outcome == AHCI_DID_FAIL);
}

/* Calls that take the place of register writes leave nothing half written, and refused ones leave it. */
static void superseded(void)
{
    uint64_t number;
    NOTES(SACT, 4);
    READS(SACT, 4);
    CHECK(ahci_port_submit(&port, 0, AHCI_READ, 3, 0, NULL, 0, &number) == AHCI_BAD_COUNT);
    READS(SACT, 4);
    fails();
    READS(SACT, 1); /* slot 2 is announced no more */
    NOTES(CMD, 0x10);
    READS(CMD, 0x4010);
    recovers();
    READS(CMD, 0xC011);
    REFUSES(CI, 4, AHCI_NOT_QUEUED);
    fails();
    READS(CMD, 0xC011); /* a failure after it finds a port that runs */
    READS(SACT, 1);
    NOTES(CMD, 0x11);   /* and ST, which was not off, recovers nothing */
    REFUSES(SACT, 1, AHCI_HALTED);
    recovers();
}

/* The other registers take what their table says; the arguments are looked at first. */
static void others(void)
{
    ahci_port none = AHCI_PORT_EMPTY;
    uint32_t word = 7;
    REFUSES(0x102, 0, AHCI_UNALIGNED);
    REFUSES(0x11C, 0, AHCI_NO_SUCH_REGISTER);
    REFUSES(CMD, 0x01, AHCI_RUNNING);
    REFUSES(CLB, 0, AHCI_RUNNING);
    NOTES(CLB, 0x00010000);
    NOTES(IE, 0xFFFFFFFF);
    READS(IE, 0x4000000F);
    NOTES(TFD, 0x1234);
    READS(TFD, 0x40);
    CHECK(ahci_port_write_register(&port, 0x102, 0, list, sizeof list - 1, windows, sizeof windows, &written) == AHCI_WRONG_LENGTH);
    CHECK(ahci_port_write_register(&none, IS, 0, list, sizeof list, windows, sizeof windows, &written) == AHCI_NO_PORT);
    CHECK(ahci_port_read_register(&port, 0x11C, &word) == AHCI_NO_SUCH_REGISTER && ahci_port_read_register(&none, IS, &word) == AHCI_NO_PORT && word == 7);
}

int main(void)
{
    static void (*const stories[])(void) = { queue, way_back, superseded, others };
    for (size_t i = 0; i < sizeof stories / sizeof *stories; i++) {
        memset(list, 0, sizeof list);
        memset(windows, 0, sizeof windows);
        ask(0, true, 3, 0xAA);
        ask(1, false, 3, 0);
        ask(3, true, 5, 0xBB);
        CHECK(ahci_port_new_zeros(&port, 8, 4) == AHCI_OK);
        READS(SACT, 0); /* nothing is left of an earlier port */
        stories[i]();
        CHECK(ahci_port_free(&port) == AHCI_OK);
    }
    puts("a driver's register writes: as worked out");
    return 0;
}
