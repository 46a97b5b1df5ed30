/* DATA SET MANAGEMENT with TRIM of a disk whose trimmed sectors read as zeros, against values worked out by hand from ACS-3: a step and an entry of the journal for each range, in the
   order of the data, and what is left of a TRIM that fails, only advises or meets a reset. Each request for memory is refused in turn; the sectors of the ranges before it are
   zeros then, and nothing else has changed. */
#include "refusing.h"
#include <string.h>

enum { LIST = 0, AREA = 0x400, TABLE = 0x1000, DATA = 0x2000, BYTES = 0x3000, SECTORS = 8 }; /* places in the driver's memory, and the disk */
enum { SUCCESS = 0x40, ABORTED = 0x0441 };                                                   /* PxTFD */
enum { RZAT = 1 << 5, DRAT = 1 << 14 };                                                      /* word 69 of IDENTIFY DEVICE */
enum { STANDBY = 0x00, ACTIVE_OR_IDLE = 0xFF };                                              /* the count of CHECK POWER MODE */

static uint8_t memory[BYTES], base[SECTORS * AHCI_SECTOR_BYTES], image[SECTORS * AHCI_SECTOR_BYTES];
static ahci_hba hba;
static int lacking;

#define NEED(it) do { if (!(it)) wrong(#it, "it is not so"); } while (0)

/* The disk's sectors are those of the image. */
static void compare_image(void)
{
    uint8_t sector[AHCI_SECTOR_BYTES];
    for (uint32_t lba = 0; lba < SECTORS; lba++) {
        NONE(ahci_hba_copy(&hba, lba, sector, sizeof sector));
        NEED(memcmp(sector, image + lba * sizeof sector, sizeof sector) == 0);
    }
}

static ahci_hba_state look(void)
{
    ahci_hba_state state;
    NONE(ahci_hba_look(&hba, &state));
    return state;
}

static ahci_state queue(void)
{
    ahci_state state;
    NONE(ahci_hba_port(&hba, &state));
    return state;
}

/* The next bytes that are read, or the next step of slot 0. Without memory it can be done again, and nothing has changed. */
static uint32_t try_once(const ahci_hba_state *now)
{
    uint64_t entries;
    return now->want == AHCI_WANT_READ ? ahci_hba_supply(&hba, memory + now->address, now->length) : ahci_hba_step(&hba, 0, &entries);
}

static void try(void)
{
    const ahci_hba_state now = look();
    const ahci_state before = queue();
    uint32_t status = try_once(&now);
    if (status == AHCI_OUT_OF_MEMORY) {
        const ahci_hba_state then = look();
        const ahci_state after = queue();
        lacking++;
        NEED(memcmp(&now, &then, sizeof now) == 0 && memcmp(&before, &after, sizeof before) == 0);
        compare_image();
        status = try_once(&now);
    }
    NEED(status == AHCI_OK);
}

/* All goes on up to this step of slot 0, or to where there is none. */
static void until(uint32_t step)
{
    for (ahci_hba_state now = look(); now.want != AHCI_WANT_NOTHING || now.sign || now.next[0] != step; now = look()) {
        if (now.want == AHCI_WANT_WRITE) {
            NONE(ahci_hba_bytes(&hba, memory + now.address, now.length));
            NONE(ahci_hba_written(&hba));
        } else if (now.want == AHCI_WANT_NOTHING && now.sign) {
            NONE(ahci_hba_sign(&hba));
        } else {
            try();
        }
    }
}

static void write_register(uint32_t offset, uint32_t word)
{
    uint64_t entries;
    NONE(ahci_hba_write(&hba, offset, 4, word, &entries));
    NEED(entries == 0);
}

static uint32_t read_register(uint32_t offset)
{
    uint64_t word;
    NONE(ahci_hba_read(&hba, offset, 4, &word));
    return (uint32_t)word;
}

/* The port is initialised (AHCI 1.3.1, section 10.1.2), or starts again after an error. */
static void start(void)
{
    write_register(AHCI_REG_PXCLB, LIST);
    write_register(AHCI_REG_PXFB, AREA);
    write_register(AHCI_REG_PXCMD, AHCI_PXCMD_FRE | AHCI_PXCMD_SUD);
    NEED(read_register(AHCI_REG_PXCLB) == LIST && read_register(AHCI_REG_PXFB) == AREA);
    until(AHCI_STEP_NONE);
    write_register(AHCI_REG_PXIS, 0xFFFFFFFF);
    write_register(AHCI_REG_PXSERR, 0xFFFFFFFF);
    write_register(AHCI_REG_PXCMD, AHCI_PXCMD_FRE | AHCI_PXCMD_SUD | AHCI_PXCMD_ST);
}

/* Issues a command in slot 0: its header (section 4.2.2), its command FIS, and a PRDT of one entry with I (section 4.2.3). */
static void issue(uint8_t code, uint8_t features, uint8_t lba, uint8_t count, bool writes, uint32_t moved)
{
    const uint8_t header[AHCI_HEADER_BYTES] = { writes ? 0x45 : 0x05, 0, moved ? 1 : 0, 0, 0, 0, 0, 0, 0, TABLE >> 8 };
    const uint8_t fis[20] = { 0x27, 0x80, code, features, lba, 0, 0, 0x40, 0, 0, 0, 0, count };
    const uint8_t entry[AHCI_PRD_BYTES] = { 0, DATA >> 8, 0, 0, 0, 0, 0, 0, 0, 0, 0, 0, (moved - 1) & 0xFF, (moved - 1) >> 8 & 0xFF, 0, 0x80 };
    write_register(AHCI_REG_PXIS, 0xFFFFFFFF);
    memcpy(memory + LIST, header, sizeof header);
    memcpy(memory + TABLE, fis, sizeof fis);
    memcpy(memory + TABLE + AHCI_PLACE_PRDT, entry, sizeof entry);
    write_register(AHCI_REG_PXCI, 1);
}

/* A command that moves no data, or to the driver, is carried out. */
static void run(uint8_t code, uint8_t features, uint8_t lba, uint8_t count, uint32_t moved)
{
    issue(code, features, lba, count, false, moved);
    until(AHCI_STEP_NONE);
    NEED(read_register(AHCI_REG_PXCI) == 0 && read_register(AHCI_REG_PXTFD) == SUCCESS);
}

/* An LBA Range Entry of the data: LBA in bits 47:0, count in bits 63:48, little-endian. */
static void lay_range(uint32_t entry, uint64_t lba, uint32_t sectors)
{
    for (uint32_t at = 0; at < 8; at++)
        memory[DATA + 8 * entry + at] = (uint8_t)((lba | (uint64_t)sectors << 48) >> 8 * at);
}

/* A TRIM of two blocks has been read and is to be carried out. */
static void issue_trim(void)
{
    issue(0x06, 1, 0, 2, true, 2 * AHCI_PAGE_BYTES);
    until(AHCI_STEP_EXECUTE);
    NEED(read_register(AHCI_REG_PXCI) == 1 && read_register(AHCI_REG_PXTFD) & AHCI_PXTFD_BSY);
}

/* The next step makes these sectors zeros, posts nothing, and is followed by another one; its entry of the journal names them. */
static void zeroes(uint64_t lba, uint32_t sectors)
{
    const uint64_t number = queue().next;
    uint64_t first = 99;
    uint32_t count = 99;
    ahci_entry entry;
    NONE(ahci_hba_trim_range(&hba, 0, &first, &count));
    NEED(first == lba && count == sectors);
    try();
    NEED(look().want == AHCI_WANT_NOTHING && look().next[0] == AHCI_STEP_EXECUTE && queue().next == number + 1);
    NEED(read_register(AHCI_REG_PXCI) == 1 && read_register(AHCI_REG_PXTFD) & AHCI_PXTFD_BSY && read_register(AHCI_REG_PXIS) == 0);
    NONE(ahci_hba_entry(&hba, number, &entry));
    NEED(entry.kind == AHCI_EVENT_ZERO && entry.lba == lba && entry.sectors == sectors && entry.tag == 0 && entry.error == 0);
    memset(image + lba * AHCI_SECTOR_BYTES, 0, (size_t)sectors * AHCI_SECTOR_BYTES);
    compare_image();
}

/* The next step makes no sector zeros and ends the command, which PxTFD shows. */
static void ends(uint32_t tfd)
{
    const uint64_t number = queue().next, moved = 2 * AHCI_PAGE_BYTES;
    uint64_t first;
    uint32_t count = 99;
    NONE(ahci_hba_trim_range(&hba, 0, &first, &count));
    NEED(count == 0);
    try();
    until(AHCI_STEP_NONE);
    NEED(read_register(AHCI_REG_PXTFD) == tfd && queue().next == number);
    NEED(memory[LIST + 4] == (moved & 0xFF) && memory[LIST + 5] == moved >> 8); /* PRDBC */
    NEED((read_register(AHCI_REG_PXIS) & (AHCI_PXIS_DHRS | AHCI_PXIS_DPS)) == (AHCI_PXIS_DHRS | AHCI_PXIS_DPS));
    compare_image();
}

static uint32_t word_69(void)
{
    run(0xEC, 0, 0, 0, AHCI_PAGE_BYTES);
    return memory[DATA + 2 * 69] | (uint32_t)memory[DATA + 2 * 69 + 1] << 8;
}

static uint8_t power_mode(void)
{
    run(0xE5, 0, 0, 0, 0);
    return memory[AREA + AHCI_PLACE_D2H + 12];
}

/* Sector 7 may have what it had or zeros after a loss of power, until a flush has come. */
static void is_durable(bool flushed)
{
    static const uint8_t zeros[AHCI_SECTOR_BYTES], other[AHCI_SECTOR_BYTES] = { 1 };
    uint8_t was[AHCI_SECTOR_BYTES];
    uint32_t may;
    memset(was, 8, sizeof was);
    NONE(ahci_hba_may_be_left(&hba, was, sizeof was, 7, was, sizeof was, &may));
    NEED(may == !flushed);
    NONE(ahci_hba_may_be_left(&hba, was, sizeof was, 7, zeros, sizeof zeros, &may));
    NEED(may == 1);
    NONE(ahci_hba_may_be_left(&hba, was, sizeof was, 7, other, sizeof other, &may));
    NEED(may == 0);
}

/* Sectors 2, 1 to 3 and 7: entries with no sectors are passed over, whatever their LBA is. Sector 2 was marked, and can be read again; the disk was in Standby, and is Active. */
static void ranges_become_zeros(void)
{
    run(0x45, 0x55, 2, 1, 0); /* WRITE UNCORRECTABLE EXT */
    run(0xE0, 0, 0, 0, 0);    /* STANDBY IMMEDIATE */
    NEED(power_mode() == STANDBY);
    memset(memory + DATA, 0, 2 * AHCI_PAGE_BYTES);
    lay_range(0, 2, 1);
    lay_range(1, 6, 0);
    lay_range(2, 1, 3);
    lay_range(64, 0xFFFFFFFFFFFF, 0);
    lay_range(127, 7, 1);
    issue_trim();
    zeroes(2, 1);
    zeroes(1, 3);
    zeroes(7, 1);
    ends(SUCCESS);
    NEED(power_mode() == ACTIVE_OR_IDLE);
    is_durable(false);
    run(0xEA, 0, 0, 0, 0); /* FLUSH CACHE EXT */
    is_durable(true);
    run(0x25, 0, 2, 1, AHCI_SECTOR_BYTES); /* READ DMA EXT */
    NEED(memcmp(memory + DATA, image + 2 * AHCI_SECTOR_BYTES, AHCI_SECTOR_BYTES) == 0);
}

/* Sector 8 is not on the disk: the command is aborted, and sector 0 stays. */
static void range_leaves_the_disk(void)
{
    memset(memory + DATA, 0, 2 * AHCI_PAGE_BYTES);
    lay_range(0, 0, 1);
    lay_range(1, 7, 2);
    issue_trim();
    ends(ABORTED);
    write_register(AHCI_REG_PXCMD, AHCI_PXCMD_FRE | AHCI_PXCMD_SUD);
    start();
}

/* COMRESET comes behind the first of two ranges: sector 4 stays zeros, and sector 5 as it was. */
static void reset_between_steps(void)
{
    memset(memory + DATA, 0, 2 * AHCI_PAGE_BYTES);
    lay_range(0, 4, 1);
    lay_range(1, 5, 1);
    issue_trim();
    zeroes(4, 1);
    write_register(AHCI_REG_PXCMD, AHCI_PXCMD_FRE | AHCI_PXCMD_SUD);
    write_register(AHCI_REG_PXSCTL, 0x301);
    write_register(AHCI_REG_PXSCTL, 0x300);
    start();
    NEED(look().next[0] == AHCI_STEP_NONE);
    compare_image();
    NEED(word_69() & DRAT);
}

/* The same TRIM only advises, is one step, and needs no medium. */
static void advises(void)
{
    NONE(ahci_hba_trim_zeros(&hba, 0));
    NEED(!(word_69() & (RZAT | DRAT)));
    memset(memory + DATA, 0, 2 * AHCI_PAGE_BYTES);
    lay_range(0, 5, 1);
    run(0xE0, 0, 0, 0, 0);
    issue_trim();
    ends(SUCCESS);
    NEED(power_mode() == STANDBY);
}

/* A controller with a disk that has the image, in memory or over a base. */
static uint32_t make(bool is_over)
{
    const ahci_hba_capabilities usual = AHCI_HBA_USUAL;
    return is_over ? ahci_hba_over(&hba, base, sizeof base, SECTORS, 32, &usual) : ahci_hba_new(&hba, base, sizeof base, 32);
}

static void begin(bool is_over)
{
    uint32_t status = make(is_over);
    if (status == AHCI_OUT_OF_MEMORY) {
        lacking++;
        status = make(is_over);
    }
    NEED(status == AHCI_OK);
    memset(memory, 0, sizeof memory);
    memcpy(image, base, sizeof image);
    start();
}

/* Over a base: the page of the sectors is named, and the base stays. */
static void touches_pages(void)
{
    uint32_t pages[1];
    uint64_t touched;
    begin(true);
    NONE(ahci_hba_trim_zeros(&hba, 1));
    NONE(ahci_hba_touched(&hba, pages, 1, &touched));
    NEED(touched == 0);
    lay_range(5, 6, 2);
    issue_trim();
    zeroes(6, 2);
    NONE(ahci_hba_touched(&hba, pages, 1, &touched));
    NEED(touched == 1 && pages[0] == 0 && base[7 * AHCI_SECTOR_BYTES] == 8);
    ends(SUCCESS);
    NONE(ahci_hba_free(&hba));
}

static int story(void)
{
    uint64_t lba;
    uint32_t count;
    lacking = 0;
    for (uint32_t at = 0; at < sizeof base; at++)
        base[at] = (uint8_t)(1 + at / AHCI_SECTOR_BYTES);
    begin(false);
    NEED(!(word_69() & (RZAT | DRAT)));
    NONE(ahci_hba_trim_zeros(&hba, 1));
    NEED((word_69() & (RZAT | DRAT)) == (RZAT | DRAT));
    ranges_become_zeros();
    range_leaves_the_disk();
    reset_between_steps();
    advises();
    NEED(ahci_hba_trim_range(&hba, 32, &lba, &count) == AHCI_BAD_TAG);
    NONE(ahci_hba_free(&hba));
    touches_pages();
    NEED(ahci_hba_trim_zeros(&hba, 1) == AHCI_NO_PORT && ahci_hba_trim_range(&hba, 0, &lba, &count) == AHCI_NO_PORT);
    return lacking;
}

int main(void)
{
    printf("a TRIM makes its ranges zeros one by one; %ld requests for memory, each refused in turn\n", refuse_each(story));
    return 0;
}
