/* The calls that need no port, against values from the standards and by hand. */
#include "ahci.h"
#include <stdio.h>
#include <stdlib.h>
#include <string.h>

#define CHECK(it) do { if (!(it)) { printf("line %d: %s\n", __LINE__, #it); exit(1); } } while (0)

/* Word w of a page of IDENTIFY DEVICE stands in bytes 2w and 2w + 1. */
static unsigned word(const uint8_t *page, int w) { return page[2 * w] | (unsigned)page[2 * w + 1] << 8; }

static void pages(void)
{
    uint8_t page[AHCI_PAGE_BYTES], untouched[AHCI_PAGE_BYTES];
    CHECK(ahci_identify_page(131072, 32, page, sizeof page) == AHCI_OK);
    CHECK(word(page, 75) == 31);                            /* queue depth less one */
    CHECK((word(page, 76) & 1 << 8) != 0);                  /* NCQ */
    CHECK(word(page, 60) == 0 && word(page, 61) == 2);      /* 20000h sectors */
    CHECK(memcmp(page + 2 * 27, "OSTFAWERN QCD SI K", 18) == 0); /* the first of two characters is the high byte */
    memcpy(untouched, page, sizeof page);
    CHECK(ahci_identify_page(1, 0, page, sizeof page) == AHCI_BAD_DEPTH);
    CHECK(ahci_identify_page(1, 33, page, sizeof page) == AHCI_BAD_DEPTH);
    CHECK(ahci_identify_page(1, 1, page, sizeof page - 1) == AHCI_WRONG_LENGTH);
    CHECK(memcmp(page, untouched, sizeof page) == 0);

    /* tag 3, status 41h, error 40h, LBA 0605_0403_0201h; all bytes add up to 0 */
    const uint8_t head[] = { 3, 0, 0x41, 0x40, 0x01, 0x02, 0x03, 0, 0x04, 0x05, 0x06 };
    uint8_t sum = 0;
    CHECK(ahci_log_page(3, 0x40, 0x060504030201, page, sizeof page) == AHCI_OK);
    CHECK(memcmp(page, head, sizeof head) == 0);
    CHECK(page[511] == 0x67);
    for (size_t i = 0; i < sizeof page; i++)
        sum = (uint8_t)(sum + page[i]);
    CHECK(sum == 0);
    CHECK(ahci_log_page(32, 0, 0, page, sizeof page) == AHCI_BAD_TAG);
    CHECK(ahci_log_page(0, 0, (uint64_t)1 << 48, page, sizeof page) == AHCI_BAD_LBA);
    CHECK(ahci_log_page(0, 0, 0, page, 0) == AHCI_WRONG_LENGTH);
}

/* READ FPDMA QUEUED of sector 9 with tag 1, into one piece after its table. */
static void windows(void)
{
    static uint8_t memory[0x90 + 512];
    const uint8_t base[4] = { 0x00, 0x00, 0x00, 0x14 };                     /* 14000000h, of tag 1 */
    const uint8_t fis[20] = { 0x27, 0x80, 0x60, 1, 9, 0, 0, 0x40, 0, 0, 0, 0, 1 << 3, 0, 0, 0, 0, 0, 0, 0 };
    const uint8_t entry[16] = { 0x90, 0x00, 0x00, 0x14, 0, 0, 0, 0, 0, 0, 0, 0, 0xFF, 0x01, 0, 0 };
    uint8_t header[AHCI_HEADER_BYTES] = { 5, 0, 1, 0 };                     /* CFL 5, one entry */
    ahci_command command = { 7, 7, 7, 7, 7 }, untouched = command;
    memcpy(header + 8, base, 4);
    memcpy(memory, fis, sizeof fis);
    memcpy(memory + 0x80, entry, sizeof entry);
    CHECK(ahci_window_check(32, header, sizeof header, memory, sizeof memory, &command) == AHCI_BAD_TAG);
    CHECK(ahci_window_check(1, header, 31, memory, sizeof memory, &command) == AHCI_WRONG_LENGTH);
    CHECK(ahci_window_check(0, header, sizeof header, memory, sizeof memory, &command) == AHCI_BAD_HEADER);
    memory[2] = 0x25; /* READ DMA EXT */
    CHECK(ahci_window_check(1, header, sizeof header, memory, sizeof memory, &command) == AHCI_BAD_COMMAND);
    memory[2] = 0x60;
    memory[12] = 2 << 3;
    CHECK(ahci_window_check(1, header, sizeof header, memory, sizeof memory, &command) == AHCI_WRONG_TAG);
    memory[12] = 1 << 3;
    CHECK(ahci_window_check(1, header, sizeof header, memory, sizeof memory - 1, &command) == AHCI_BAD_LIST);
    CHECK(memcmp(&command, &untouched, sizeof command) == 0);
    CHECK(ahci_window_check(1, header, sizeof header, memory, sizeof memory, &command) == AHCI_OK);
    CHECK(command.lba == 9 && command.sectors == 1 && command.kind == AHCI_READ && command.tag == 1 && command.pieces == 1);
}

/* The bytes of each type as Serial ATA lays them out, there and back. */
static void fises(void)
{
    static const struct { uint8_t bytes[28]; size_t count; ahci_fis fis; } all[] = {
        /* READ FPDMA QUEUED: features 0008h, LBA 060504030201h, tag 5 in count */
        { { 0x27, 0x80, 0x60, 8, 1, 2, 3, 0x40, 4, 5, 6, 0, 5 << 3, 0, 0, 0 }, 20,
          { .kind = 0x27, .c = 1, .command = 0x60, .features = 8, .lba = 0x060504030201, .device = 0x40, .count = 5 << 3 } },
        { { 0x34, 0x40, 0x50, 0x10, 7, 0, 0, 0x40, 0, 0, 0, 0, 0x34, 0x12 }, 20,
          { .kind = 0x34, .i = 1, .status = 0x50, .error = 0x10, .lba = 7, .device = 0x40, .count = 0x1234 } },
        { { 0x39 }, 4, { .kind = 0x39 } },
        /* A 7, I 6 and D 5 in byte 1; the offset in bytes 16 to 19, the count in 20 to 23 */
        { { 0x41, 0xA0, 0, 0, 31, 0, 0, 0, 0, 0, 0, 0, 0, 0, 0, 0, 0x78, 0x56, 0x34, 0x12, 0, 2, 0, 0 }, 28,
          { .kind = 0x41, .a = 1, .d = 1, .tag = 31, .offset = 0x12345678, .transfer = 512 } },
        /* E_Status in byte 15, the count in 16 and 17 */
        { { 0x5F, 0x60, 0x58, 0, 9, 0, 0, 0x40, 0, 0, 0, 0, 1, 0, 0, 0x50, 0, 2 }, 20,
          { .kind = 0x5F, .i = 1, .d = 1, .status = 0x58, .lba = 9, .device = 0x40, .count = 1, .e_status = 0x50, .bytes = 512 } },
        { { 0xA1, 0x40, 0x41, 0x40, 0x08, 0, 0, 0x80 }, 8, { .kind = 0xA1, .i = 1, .status = 0x41, .error = 0x40, .sactive = 0x80000008 } },
    };
    uint8_t out[32];
    size_t length;
    ahci_fis fis;
    for (size_t n = 0; n < sizeof all / sizeof *all; n++) {
        CHECK(ahci_fis_decode(all[n].bytes, all[n].count, &fis) == AHCI_OK && memcmp(&fis, &all[n].fis, sizeof fis) == 0);
        memset(out, 0xEE, sizeof out);
        CHECK(ahci_fis_encode(&all[n].fis, (const uint8_t *)"", 0, out, all[n].count - 1, &length) == AHCI_BUFFER_TOO_SMALL && out[0] == 0xEE);
        CHECK(ahci_fis_encode(&all[n].fis, (const uint8_t *)"", 0, out, sizeof out, &length) == AHCI_OK && length == all[n].count);
        CHECK(memcmp(out, all[n].bytes, length) == 0 && out[length] == 0xEE);
        CHECK(ahci_fis_decode(all[n].bytes, all[n].count - 1, &fis) == AHCI_WRONG_FIS_LENGTH);
    }
    const uint8_t payload[] = { 1, 2, 3, 4 }, data[] = { 0x46, 0, 0, 0, 1, 2, 3, 4 };
    ahci_fis carrier = { .kind = 0x46, .payload = 4 }, flag = { .kind = 0x27, .c = 2 }, far = { .kind = 0x34, .lba = (uint64_t)1 << 48 };
    ahci_fis tag = { .kind = 0x41, .tag = 32 }, busy = { .kind = 0xA1, .status = 0x80 };
    CHECK(ahci_fis_decode(data, sizeof data, &fis) == AHCI_OK && memcmp(&fis, &carrier, sizeof fis) == 0);
    CHECK(ahci_fis_encode(&carrier, payload, 4, out, sizeof out, &length) == AHCI_OK && length == 8 && memcmp(out, data, 8) == 0);
    CHECK(ahci_fis_encode(&carrier, payload, 3, out, sizeof out, &length) == AHCI_BAD_PAYLOAD);
    CHECK(ahci_fis_encode(&flag, payload, 0, out, sizeof out, &length) == AHCI_BAD_FLAG);
    CHECK(ahci_fis_encode(&far, payload, 0, out, sizeof out, &length) == AHCI_BAD_LBA);
    CHECK(ahci_fis_encode(&tag, payload, 0, out, sizeof out, &length) == AHCI_BAD_TAG);
    CHECK(ahci_fis_encode(&busy, payload, 0, out, sizeof out, &length) == AHCI_BAD_STATUS);
    CHECK(ahci_fis_decode(data, 0, &fis) == AHCI_EMPTY_FIS);
    CHECK(ahci_fis_decode(payload, 4, &fis) == AHCI_UNKNOWN_TYPE);
}

/* The header's sizes: what the standards say, and what the calls take. */
static void sizes(void)
{
    static uint8_t payload[8196], out[8200];
    static const ahci_state state;
    ahci_fis carrier = { .kind = 0x46 }, fis;
    size_t length, bad;
    CHECK(AHCI_SECTOR_BYTES == 512 && AHCI_PAGE_BYTES == 512);
    CHECK(AHCI_MOST_SECTORS == (64 << 20) / 512);
    CHECK(AHCI_MOST_TAGS == 32 && sizeof state.phases == AHCI_MOST_TAGS && sizeof state.numbers / sizeof *state.numbers == AHCI_MOST_TAGS);
    CHECK(AHCI_HEADER_BYTES == 0x20 && AHCI_LIST_BYTES == 0x400); /* AHCI 1.3.1, section 4.2.2 */
    CHECK(AHCI_RECEIVED_BYTES == 0x100 && sizeof state.received == AHCI_RECEIVED_BYTES); /* section 4.2.1 */
    CHECK(AHCI_MOST_COUNT == 0x10000); /* ACS-3, READ FPDMA QUEUED: features 0000h */
    ahci_entry most = { .kind = AHCI_EVENT_READ, .sectors = AHCI_MOST_COUNT };
    CHECK(ahci_journal_check(AHCI_MOST_SECTORS, 1, &most, 1, &bad) == AHCI_OK);
    most.sectors++;
    CHECK(ahci_journal_check(AHCI_MOST_SECTORS, 1, &most, 1, &bad) == AHCI_NOT_ALLOWED);
    CHECK(AHCI_MOST_FIS_BYTES == 4 + 8192); /* Serial ATA, "Data FIS": its first dword and 2,048 more */
    CHECK(ahci_fis_encode(&carrier, payload, 8192, out, AHCI_MOST_FIS_BYTES - 1, &length) == AHCI_BUFFER_TOO_SMALL);
    CHECK(ahci_fis_encode(&carrier, payload, 8192, out, AHCI_MOST_FIS_BYTES, &length) == AHCI_OK && length == AHCI_MOST_FIS_BYTES);
    CHECK(ahci_fis_decode(out, AHCI_MOST_FIS_BYTES, &fis) == AHCI_OK && fis.payload == 8192);
    CHECK(ahci_fis_decode(out, AHCI_MOST_FIS_BYTES + 4, &fis) == AHCI_WRONG_FIS_LENGTH);
    CHECK(ahci_fis_encode(&carrier, payload, 8196, out, sizeof out, &length) == AHCI_BAD_PAYLOAD);
}

/* An event by its kind and its numbers. */
static ahci_entry event(uint32_t kind, uint32_t tag, uint64_t lba, uint32_t sectors, uint32_t error)
{
    return (ahci_entry){ .kind = kind, .tag = tag, .lba = lba, .sectors = sectors, .error = error };
}
#define READ(tag, lba, sectors) event(AHCI_EVENT_READ, tag, lba, sectors, 0)
#define WRITE(tag, lba, sectors) event(AHCI_EVENT_WRITE, tag, lba, sectors, 0)
#define FAIL(tag, error, lba) event(AHCI_EVENT_FAIL, tag, lba, 0, error)
#define OF(kind, tag) event(AHCI_EVENT_##kind, tag, 0, 0, 0)

/* Some events are a journal on 16 sectors with 4 slots, and what comes last can't come there. */
static void breaks(const ahci_entry *events, size_t count)
{
    size_t bad = 99;
    CHECK(ahci_journal_check(16, 4, events, count - 1, &bad) == AHCI_OK && bad == 99);
    CHECK(ahci_journal_check(16, 4, events, count, &bad) == AHCI_NOT_ALLOWED && bad == count - 1);
}
#define BREAKS(...) do { const ahci_entry events[] = { __VA_ARGS__ }; breaks(events, sizeof events / sizeof *events); } while (0)

/* Which events may follow which: a story with a command past the disk's end, its recovery and what follows; and each reason
   for which an event can't come. */
static void journals(void)
{
    const ahci_entry story[] = {
        READ(0, 3, 2), WRITE(1, 14, 3), OF(ACCEPT, 0), FAIL(1, 0x10, 16), OF(RECOVER, 1), OF(COLLECT, 1), OF(REISSUE, 0),
        OF(ACCEPT, 0), OF(COMPLETE, 0), OF(COLLECT, 0), OF(IDENTIFY, 0), OF(FLUSH, 99), WRITE(3, 15, 1), OF(ACCEPT, 3), FAIL(3, 0xFF, 15),
    };
    const size_t count = sizeof story / sizeof *story;
    size_t bad = 99;
    CHECK(ahci_journal_check(16, 4, story, 0, &bad) == AHCI_OK);
    CHECK(ahci_journal_check(16, 4, story, count, &bad) == AHCI_OK);
    CHECK(ahci_journal_check(16, 0, story, count, &bad) == AHCI_BAD_DEPTH);
    CHECK(ahci_journal_check(16, 33, story, count, &bad) == AHCI_BAD_DEPTH && bad == 99);
    CHECK(ahci_journal_check(17, 4, story, count, &bad) == AHCI_NOT_ALLOWED && bad == 3); /* the write fits */
    CHECK(ahci_journal_check(16, 1, story, count, &bad) == AHCI_NOT_ALLOWED && bad == 1);
    /* an issue: the slots, the slot, the count, the LBA, an error that stands */
    BREAKS(READ(4, 3, 2));
    BREAKS(READ(32, 3, 2));
    BREAKS(READ(0, 3, 2), WRITE(0, 3, 2));
    BREAKS(READ(0, 3, 0));
    BREAKS(WRITE(0, 3, 65537));
    BREAKS(WRITE(0, (uint64_t)1 << 48, 1));
    BREAKS(READ(0, 3, 2), OF(ACCEPT, 0), FAIL(0, 0x40, 4), READ(1, 3, 2));
    /* an acceptance: a command that waits, within the disk */
    BREAKS(OF(ACCEPT, 0));
    BREAKS(READ(0, 3, 2), OF(ACCEPT, 0), OF(ACCEPT, 0));
    BREAKS(READ(0, 15, 2), OF(ACCEPT, 0));
    BREAKS(READ(0, UINT64_MAX >> 16, 1), OF(ACCEPT, 0));
    /* a completion and a failure: an accepted command, one of its sectors; or the first sector past the disk, by error 10h */
    BREAKS(READ(0, 3, 2), OF(COMPLETE, 0));
    BREAKS(READ(0, 3, 2), FAIL(0, 0x40, 3));
    BREAKS(READ(0, 3, 2), OF(ACCEPT, 0), FAIL(0, 0x40, 5));
    BREAKS(READ(0, 3, 2), OF(ACCEPT, 0), FAIL(0, 0x140, 4));
    BREAKS(READ(0, 15, 2), FAIL(0, 0x40, 16));
    BREAKS(READ(0, 15, 2), FAIL(0, 0x10, 15));
    BREAKS(READ(0, 20, 2), FAIL(0, 0x10, 16));
    /* the way back: the failed tag alone, then those that are held */
    BREAKS(OF(RECOVER, 0));
    BREAKS(READ(0, 3, 2), READ(1, 3, 2), OF(ACCEPT, 0), FAIL(0, 0x40, 4), OF(RECOVER, 1));
    BREAKS(READ(0, 3, 2), OF(REISSUE, 0));
    BREAKS(READ(0, 3, 2), OF(ACCEPT, 0), FAIL(0, 0x40, 4), OF(RECOVER, 0), OF(REISSUE, 0));
    /* an answer is taken once it is there */
    BREAKS(READ(0, 3, 2), OF(ACCEPT, 0), OF(COLLECT, 0));
    BREAKS(READ(0, 3, 2), OF(ACCEPT, 0), OF(COMPLETE, 0), OF(COLLECT, 0), OF(COLLECT, 0));
    /* what is not queued waits for an idle port */
    BREAKS(READ(0, 3, 2), OF(IDENTIFY, 0));
    BREAKS(READ(0, 3, 2), OF(ACCEPT, 0), OF(FLUSH, 0));
    BREAKS(READ(0, 3, 2), OF(ACCEPT, 0), FAIL(0, 0x40, 4), OF(FLUSH, 0));
    BREAKS(OF(READ_LOG, 0));
    BREAKS(event(11, 0, 0, 0, 0));
}

/* Sets, orders and draws, each with the tags worked out by hand. */
static void choices(void)
{
    static const struct { uint32_t order, set, failing, most; uint64_t draws[3]; size_t count; uint8_t tags[5]; size_t length; } rows[] = {
        /* the tags 1, 3, 4, 9 */
        { AHCI_ORDER_LOWEST, 0x21A, 0, 1, { 0 }, 0, { 1 }, 1 },
        { AHCI_ORDER_LOWEST, 0x21A, 0, 32, { 0 }, 0, { 1, 3, 4, 9 }, 4 },
        { AHCI_ORDER_LOWEST, 0x21A, 0, 0, { 0 }, 0, { 0 }, 0 },
        { AHCI_ORDER_HIGHEST, 0x21A, 0, 2, { 0 }, 0, { 9, 4 }, 2 },
        { AHCI_ORDER_HIGHEST, 0x80000001, 0, UINT32_MAX, { 0 }, 0, { 31, 0 }, 2 },
        /* 6 mod 4 is 2: tag 4; of 1, 3, 9 number 1: tag 3; of 1, 9 number 7 mod 2: tag 9; then no draw is there: tag 1 */
        { AHCI_ORDER_DRAWN, 0x21A, 0, 4, { 6, 1, 7 }, 3, { 4, 3, 9, 1 }, 4 },
        { AHCI_ORDER_DRAWN, 0x21A, 0, 1, { UINT64_MAX }, 1, { 9 }, 1 },
        /* the tags 1, 5, 30, from the draw's place on */
        { AHCI_ORDER_ROUND, 0x40000022, 0, 1, { 0 }, 1, { 1 }, 1 },
        { AHCI_ORDER_ROUND, 0x40000022, 0, 1, { 1 }, 1, { 1 }, 1 },
        { AHCI_ORDER_ROUND, 0x40000022, 0, 1, { 2 }, 1, { 5 }, 1 },
        { AHCI_ORDER_ROUND, 0x40000022, 0, 1, { 6 }, 1, { 30 }, 1 },
        { AHCI_ORDER_ROUND, 0x40000022, 0, 1, { 30 }, 1, { 30 }, 1 },
        { AHCI_ORDER_ROUND, 0x40000022, 0, 1, { 31 }, 1, { 1 }, 1 },
        { AHCI_ORDER_ROUND, 0x40000022, 0, 1, { 34 }, 1, { 5 }, 1 },
        { AHCI_ORDER_ROUND, 0x40000022, 0, 1, { UINT64_MAX }, 1, { 1 }, 1 }, /* 2^64 - 1 is 31 modulo 32 */
        { AHCI_ORDER_ROUND, 0x40000022, 0, 32, { 6, 6, 6 }, 3, { 30, 1, 5 }, 3 },
        { AHCI_ORDER_ROUND, 0x40000022, 0x2, 32, { 6, 6, 6 }, 3, { 30 }, 1 },
        /* up to a tag that is to fail, or that one alone */
        { AHCI_ORDER_LOWEST, 0x21A, 0x10, 32, { 0 }, 0, { 1, 3 }, 2 },
        { AHCI_ORDER_LOWEST, 0x21A, 0x12, 32, { 0 }, 0, { 1 }, 1 },
        { AHCI_ORDER_HIGHEST, 0x21A, 0x210, 32, { 0 }, 0, { 9 }, 1 },
        { AHCI_ORDER_LOWEST, 0x21A, 0xFFFFFDE5, 32, { 0 }, 0, { 1, 3, 4, 9 }, 4 }, /* none of these is in the set */
    };
    uint8_t tags[AHCI_MOST_TAGS];
    size_t length = 99;
    uint32_t tag = 99;
    for (size_t at = 0; at < sizeof rows / sizeof *rows; at++) {
        memset(tags, 0xEE, sizeof tags);
        CHECK(ahci_choose_tags(rows[at].order, rows[at].set, rows[at].failing, rows[at].most, rows[at].draws, rows[at].count, tags, sizeof tags, &length) == AHCI_OK);
        CHECK(length == rows[at].length && memcmp(tags, rows[at].tags, length) == 0 && tags[length] == 0xEE);
        CHECK(ahci_choose_tag(rows[at].order, rows[at].set, rows[at].count ? rows[at].draws[0] : 0, &tag) == AHCI_OK);
        CHECK(!length || tag == tags[0]);
    }
    tag = length = 99;
    CHECK(ahci_choose_tag(4, 1, 0, &tag) == AHCI_BAD_KIND);
    CHECK(ahci_choose_tag(AHCI_ORDER_DRAWN, 0, 7, &tag) == AHCI_BAD_TAGS);
    CHECK(ahci_choose_tags(4, 0, 0, 1, rows->draws, 0, tags, sizeof tags, &length) == AHCI_BAD_KIND);
    CHECK(ahci_choose_tags(AHCI_ORDER_LOWEST, 0, 0, 1, rows->draws, 0, tags, 0, &length) == AHCI_BAD_TAGS);
    CHECK(ahci_choose_tags(AHCI_ORDER_LOWEST, 0x21A, 0, 32, rows->draws, 0, tags, 3, &length) == AHCI_BUFFER_TOO_SMALL);
    CHECK(tag == 99 && length == 99);
    CHECK(ahci_choose_tags(AHCI_ORDER_LOWEST, UINT32_MAX, 0, 32, rows->draws, 0, tags, sizeof tags, &length) == AHCI_OK && length == 32 && tags[31] == 31);
}

static void names(void)
{
    char text[32] = "unchanged";
    size_t length = 99;
    CHECK(ahci_status_text(14, (uint8_t *)text, sizeof text, &length) == AHCI_BAD_KIND);
    CHECK(ahci_status_text(AHCI_OUTSIDE_COMMAND, (uint8_t *)text, 14, &length) == AHCI_BUFFER_TOO_SMALL);
    CHECK(length == 99 && strcmp(text, "unchanged") == 0);
    CHECK(ahci_status_text(AHCI_OUTSIDE_COMMAND, (uint8_t *)text, 15, &length) == AHCI_OK);
    CHECK(length == 14 && strcmp(text, "OutsideCommand") == 0);
    CHECK(ahci_status_text(AHCI_OK, (uint8_t *)text, sizeof text, &length) == AHCI_OK && strcmp(text, "Ok") == 0);
    CHECK(ahci_version() == AHCI_VERSION);
}

int main(void)
{
    pages();
    windows();
    fises();
    sizes();
    journals();
    choices();
    names();
    puts("the calls without a port: as the standards have it");
    return 0;
}
