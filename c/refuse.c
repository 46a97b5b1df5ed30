/* Each request for memory of a short story is refused in turn: each call that may want memory says so, has changed nothing, and
   succeeds later; and what is left at the end is freed. A call that takes no memory succeeds while every request is refused, and
   asks for none. */
#include "ahci.h"
#include "refusing.h"
#include <stdio.h>
#include <string.h>

/* All that can be seen of a port, and zeros of an empty place. */
static ahci_state seen(ahci_port *port)
{
    ahci_state state;
    memset(&state, 0, sizeof state);
    ahci_port_state(port, &state);
    return state;
}

static bool differs(ahci_state before, ahci_state after) { return memcmp(&before, &after, sizeof before) != 0; }

/* Makes a call of `port` that may want memory, until it is there: it is refused at most once, and has changed nothing then, neither the
   port nor `out`. */
#define TRY(port, out, call) do { \
    ahci_state before = seen(port); \
    uint8_t was[sizeof (out)]; \
    memcpy(was, &(out), sizeof was); \
    uint32_t s = (call); \
    if (s == AHCI_OUT_OF_MEMORY) { \
        lacking++; \
        if (differs(before, seen(port)) || memcmp(was, &(out), sizeof was) != 0) \
            wrong(#call, "something has changed"); \
        s = (call); \
    } \
    if (s != AHCI_OK) \
        wrong(#call, "it is not done"); \
} while (0)

static uint8_t image[8 * AHCI_SECTOR_BYTES], data[AHCI_SECTOR_BYTES], got[AHCI_SECTOR_BYTES], page[AHCI_PAGE_BYTES];
static uint8_t list[AHCI_LIST_BYTES], windows[32 * 0x290];
static const uint8_t tags[] = { 0, 1 };

/* A read of sector 3 by slot 0, in the command list and in slot 0's window. */
static void lay_out(void)
{
    const uint8_t fis[13] = { 0x27, 0x80, 0x60, 1, 3, 0, 0, 0x40, 0, 0, 0, 0, 0 };
    memset(data, 0xAB, sizeof data);
    list[0] = 5;
    list[2] = 1;
    list[11] = windows[0x83] = 0x10; /* the base of slot 0 */
    memcpy(windows, fis, sizeof fis);
    windows[0x80] = 0x90;
    windows[0x8C] = 0xFF;
    windows[0x8D] = 0x01;
}

static void collects(ahci_port *port, uint32_t tag, uint64_t number)
{
    ahci_reply reply;
    NONE(ahci_port_collect(port, tag, number, &reply, got, sizeof got));
}

/* The device takes the command of slot 0, and serves it; its answer is taken. */
static void served(ahci_port *port, uint64_t number)
{
    ahci_stepped done;
    NONE(ahci_port_accept(port, 0, &done));
    NONE(ahci_port_serve(port, tags, 1, &done));
    collects(port, 0, number);
}

/* A read by PxSACT and PxCI, whose window is copied: where memory is refused, the slot is named and can be written again. It fails, and
   the port recovers by PxCMD. */
static int driven(ahci_port *port)
{
    ahci_written written = { 9, 9, 9 };
    ahci_stepped done;
    ahci_slot slot;
    int lacking = 0;
    NONE(ahci_port_write_register(port, 0x134, 1, list, sizeof list, windows, sizeof windows, &written));
    ahci_state before = seen(port);
    uint32_t status = ahci_port_write_register(port, 0x138, 1, list, sizeof list, windows, sizeof windows, &written);
    if (status == AHCI_OUT_OF_MEMORY) {
        lacking++;
        if (written.did != AHCI_WROTE_SOME || written.tag != 0 || differs(before, seen(port)))
            wrong("PxCI", "the slot is not named");
        status = ahci_port_write_register(port, 0x138, 1, list, sizeof list, windows, sizeof windows, &written);
    }
    if (status != AHCI_OK || written.slots != 1)
        wrong("PxCI", "a command is not issued");
    NONE(ahci_port_slot(port, 0, &slot));
    NONE(ahci_port_accept(port, 0, &done));
    NONE(ahci_port_fail(port, 0, 0x40, 3, &done));
    NONE(ahci_port_write_register(port, 0x110, 8, list, sizeof list, windows, sizeof windows, &written));
    NONE(ahci_port_write_register(port, 0x118, 0x10, list, sizeof list, windows, sizeof windows, &written));
    TRY(port, written, ahci_port_write_register(port, 0x118, 0x11, list, sizeof list, windows, sizeof windows, &written));
    if (written.did != AHCI_WROTE_START)
        wrong("PxCMD", "the port has not recovered");
    collects(port, 0, slot.number);
    return lacking;
}

/* One command or two, of which the first fails; the other is issued again. */
static int failing(ahci_port *port, uint32_t count)
{
    uint64_t numbers[2] = { 99, 99 };
    ahci_stepped done;
    uint32_t tag = 99;
    int lacking = 0;
    for (uint32_t at = 0; at < count; at++) {
        TRY(port, numbers, ahci_port_submit(port, at, AHCI_READ, 3, 1, got, 0, &numbers[at]));
        NONE(ahci_port_accept(port, at, &done));
    }
    NONE(ahci_port_fail(port, 0, 0x40, 3, &done));
    TRY(port, tag, ahci_port_recover(port, &tag));
    collects(port, 0, numbers[0]);
    if (count == 1)
        return lacking;
    NONE(ahci_port_reissue(port, 1));
    NONE(ahci_port_accept(port, 1, &done));
    NONE(ahci_port_serve(port, tags + 1, 1, &done));
    collects(port, 1, numbers[1]);
    return lacking;
}

/* The calls that look, at a port whose first entry has issued a write. */
static void looks(ahci_port *port)
{
    uint8_t area[AHCI_RECEIVED_BYTES];
    ahci_tag_sets sets;
    ahci_entry entry;
    ahci_state state;
    ahci_slot slot;
    uint32_t word;
    NONE(ahci_port_depth(port, &word));
    NONE(ahci_port_sectors(port, &word));
    NONE(ahci_port_register(port, 0x134, &word));
    NONE(ahci_port_read_register(port, 0x134, &word));
    NONE(ahci_port_acknowledge(port, 8));
    NONE(ahci_port_received(port, area, sizeof area));
    NONE(ahci_port_tag_sets(port, &sets));
    NONE(ahci_port_slot(port, 0, &slot));
    NONE(ahci_port_copy(port, 3, got, sizeof got));
    NONE(ahci_port_entry(port, 0, &entry));
    NONE(ahci_port_entry_bytes(port, 0, got, sizeof got));
    NONE(ahci_port_state(port, &state));
}

/* The calls that need no port; of them the check of a window alone takes memory. */
static int alone(void)
{
    const uint8_t header[AHCI_HEADER_BYTES] = { 0 }, bits[] = { 0xA1, 0x40, 0x40, 0, 1, 0, 0, 0 };
    const ahci_entry event = { .kind = AHCI_EVENT_WRITE, .lba = 3, .sectors = 1 };
    ahci_port none = AHCI_PORT_EMPTY;
    ahci_command command = { 9, 9, 9, 9, 9 };
    const uint64_t draw = 3;
    ahci_fis fis;
    uint8_t out[32];
    uint32_t tag;
    size_t length;
    int lacking = 0;
    NONE(ahci_fis_decode(bits, sizeof bits, &fis));
    NONE(ahci_fis_encode(&fis, bits, 0, out, sizeof out, &length));
    NONE(ahci_identify_page(8, 4, page, sizeof page));
    NONE(ahci_log_page(3, 0x40, 7, page, sizeof page));
    NONE(ahci_journal_check(8, 4, &event, 1, &length));
    NONE(ahci_choose_tag(AHCI_ORDER_HIGHEST, 6, 0, &tag));
    NONE(ahci_choose_tags(AHCI_ORDER_DRAWN, 6, 4, 2, &draw, 1, out, sizeof out, &length));
    NONE(ahci_status_text(AHCI_HALTED, out, sizeof out, &length));
    NONE(ahci_version() == AHCI_VERSION ? AHCI_OK : AHCI_BAD_KIND);
    TRY(&none, command, ahci_window_check(0, list, AHCI_HEADER_BYTES, windows, 0x290, &command));
    uint32_t checked = ahci_window_check(0, header, sizeof header, image, sizeof image, &command);
    if (checked == AHCI_OUT_OF_MEMORY) {
        lacking++;
        checked = ahci_window_check(0, header, sizeof header, image, sizeof image, &command);
    }
    if (checked != AHCI_BAD_HEADER)
        wrong("ahci_window_check", "a window of zeros has a header");
    return lacking;
}

/* Ports that are made in the other two ways. */
static int made(void)
{
    ahci_port port = AHCI_PORT_EMPTY;
    int lacking = 0;
    TRY(&port, image, ahci_port_new_zeros(&port, 8, 4));
    NONE(ahci_port_free(&port));
    TRY(&port, image, ahci_port_resume(&port, image, sizeof image, 4, 7));
    NONE(ahci_port_free(&port));
    return lacking;
}

/* A disk of nearly 2 TiB, whose write of two sectors needs pages in two parts of a table: all that it lacks, it lacks when it is issued. */
static int over_a_base(void)
{
    enum { ACROSS = 4096 - 1 };
    static uint8_t two[1024], back[1024];
    ahci_port port = AHCI_PORT_EMPTY;
    ahci_stepped done;
    ahci_reply reply;
    uint64_t number = 99, entries, touched;
    uint32_t pages[2];
    int lacking = 0;
    memset(two, 0xA7, sizeof two);
    TRY(&port, image, ahci_port_over(&port, image, sizeof image, UINT32_MAX, 4, 5));
    TRY(&port, number, ahci_port_submit(&port, 0, AHCI_WRITE, ACROSS, 2, two, sizeof two, &number));
    NONE(ahci_port_accept(&port, 0, &done));
    NONE(ahci_port_serve(&port, (uint8_t[]){ 0 }, 1, &done));
    NONE(ahci_port_collect(&port, 0, number, &reply, two, 0));
    NONE(ahci_port_copy(&port, ACROSS, back, 512));
    NONE(ahci_port_copy(&port, ACROSS + 1, back + 512, 512));
    if (memcmp(two, back, sizeof two) != 0)
        wrong("ahci_port_copy", "a sector has lost its bytes");
    if (ahci_port_touched(&port, pages, 1, &touched) != AHCI_BUFFER_TOO_SMALL || touched != 2)
        wrong("ahci_port_touched", "two numbers have room where one has");
    NONE(ahci_port_touched(&port, pages, 2, &touched));
    if (touched != 2 || pages[0] != ACROSS / 8 || pages[1] != ACROSS / 8 + 1)
        wrong("ahci_port_touched", "a page that was written isn't named");
    NONE(ahci_port_trim(&port, &entries));
    NONE(ahci_port_touched(&port, pages, 0, &touched));
    if (touched != 0)
        wrong("ahci_port_touched", "a page is named after a trim");
    NONE(ahci_port_copy(&port, UINT32_MAX - 1, back, 512));
    NONE(ahci_port_free(&port));
    return lacking;
}

/* Another disk is plugged in where one was pulled out. */
static int exchanged(ahci_hba *hba, const ahci_identity *named)
{
    ahci_state before, after;
    uint64_t entries = 99;
    int lacking = 0;
    NONE(ahci_hba_port(hba, &before));
    uint32_t status = ahci_hba_plug_other(hba, image, sizeof image, 9, 32, named, &entries);
    if (status == AHCI_OUT_OF_MEMORY) {
        lacking++;
        NONE(ahci_hba_port(hba, &after));
        if (differs(before, after) || entries != 99)
            wrong("ahci_hba_plug_other", "something has changed");
        status = ahci_hba_plug_other(hba, image, sizeof image, 9, 32, named, &entries);
    }
    if (status != AHCI_OK || entries != 0)
        wrong("ahci_hba_plug_other", "no other disk is plugged in");
    return lacking;
}

/* A controller whose journal is trimmed, whose interface fails, whose link is lost and found, whose disk is pulled out and plugged in again and is named, which gets another disk, and that
   is powered on again. */
static int controlled(void)
{
    ahci_hba hba = AHCI_HBA_EMPTY;
    ahci_port none = AHCI_PORT_EMPTY;
    ahci_identity named = { .rotation = 1 };
    uint64_t entries, lba;
    uint32_t enabled, sectors;
    int lacking = 0;
    memset(&named, ' ', sizeof named - sizeof named.rotation);
    TRY(&none, image, ahci_hba_new(&hba, image, sizeof image, 32));
    NONE(ahci_hba_trim(&hba, &entries));
    NONE(ahci_hba_fail_interface(&hba, AHCI_INTERFACE_CRC, 1));
    NONE(ahci_hba_lose_link(&hba, &entries));
    NONE(ahci_hba_find_link(&hba));
    NONE(ahci_hba_unplug(&hba, &entries));
    NONE(ahci_hba_plug(&hba));
    NONE(ahci_hba_identity(&hba, &named));
    NONE(ahci_hba_write_cache(&hba, 1));
    NONE(ahci_hba_write_cache_enabled(&hba, &enabled));
    NONE(ahci_hba_trim_zeros(&hba, 1));
    NONE(ahci_hba_trim_range(&hba, 0, &lba, &sectors));
    NONE(ahci_hba_unplug(&hba, &entries));
    lacking += exchanged(&hba, &named);
    NONE(ahci_hba_copy(&hba, 8, got, sizeof got));
    NONE(ahci_hba_power_on(&hba, &entries));
    NONE(ahci_hba_free(&hba));
    return lacking;
}

/* A flush and a recovery after some short journals: memory for entries is asked for ahead, and not by each call. */
static int after_some_entries(void)
{
    const uint8_t nothing = 0;
    int lacking = 0;
    for (uint32_t at = 0; at < 6; at++) {
        ahci_port port = AHCI_PORT_EMPTY;
        TRY(&port, nothing, ahci_port_new_zeros(&port, 8, 4));
        for (uint32_t length = at / 2; length > 0; length--)
            TRY(&port, nothing, ahci_port_flush(&port));
        lacking += failing(&port, at % 2 + 1);
        NONE(ahci_port_free(&port));
    }
    return lacking;
}

static int story(void)
{
    ahci_port port = AHCI_PORT_EMPTY;
    uint64_t number = 99, entries;
    int lacking = made() + over_a_base() + alone() + controlled() + after_some_entries();
    TRY(&port, image, ahci_port_new(&port, image, sizeof image, 32));
    TRY(&port, number, ahci_port_submit(&port, 0, AHCI_WRITE, 3, 1, data, sizeof data, &number));
    looks(&port);
    served(&port, number);
    memset(page, 0xEE, sizeof page);
    TRY(&port, page, ahci_port_identify(&port, page, sizeof page));
    lacking += driven(&port);
    TRY(&port, number, ahci_port_flush(&port));
    NONE(ahci_port_trim(&port, &entries));
    number = 99;
    TRY(&port, number, ahci_port_issue(&port, 0, list, AHCI_HEADER_BYTES, windows, 0x290, &number));
    served(&port, number);
    if (memcmp(got, data, sizeof data) != 0)
        wrong("ahci_port_collect", "a read has lost its bytes");
    lacking += failing(&port, 2);
    NONE(ahci_port_free(&port));
    return lacking;
}

int main(void)
{
    lay_out();
    printf("%ld requests for memory, each refused in turn: nothing lost\n", refuse_each(story));
    return 0;
}
