/* Sections are those of AHCI 1.3.1. */
#include "port.h"

#include <stdlib.h>
#include <string.h>

enum { DHRS = 1, PSS = 2, SDBS = 8, DPS = 32, TFES = 1 << 30 };
enum { ST = 1, FRE = 16, FR = 1 << 14, CR = 1 << 15 };
enum { ERR = 1, DRQ = 8, BSY = 0x80, GOOD = 0x50 };
enum { ABRT = 4, IDNF = 0x10 };
enum { DMA_SETUP = 0x00, PIO_SETUP = 0x20, REGISTER = 0x40, SET_DEVICE_BITS = 0x58 };

#define LOW_BYTES 0x90000000ull
#define HIGH_BYTES 0x10000000ull
#define FOUR_GIB 0x100000000ull

struct request {
    bool waits, write;
    uint64_t lba;
    uint32_t count;
};

static struct {
    uint32_t clb, clbu, fb, fbu, is, ie, cmd, tfd, sctl, sact, ci;
    bool halted;
} port;

static struct {
    uint32_t sectors, depth;
    uint8_t *bytes;
    struct request requests[32];
    bool failed;
    uint8_t tag, error; /* of the command that failed */
    uint64_t lba;
} disk;

static uint8_t *low, *high; /* the guest's memory below and above 4 GiB */

void port_start(uint32_t sectors, uint32_t depth)
{
    disk.sectors = sectors;
    disk.depth = depth;
    disk.bytes = calloc(sectors + 128u, SECTOR);
    low = calloc(LOW_BYTES, 1);
    high = calloc(HIGH_BYTES, 1);
    if (!disk.bytes || !low || !high)
        abort();
    port.tfd = GOOD;
}

uint8_t *port_memory(uint64_t address, uint64_t length)
{
    if (length <= LOW_BYTES && address <= LOW_BYTES - length)
        return low + address;
    if (address >= FOUR_GIB && length <= HIGH_BYTES && address - FOUR_GIB <= HIGH_BYTES - length)
        return high + (address - FOUR_GIB);
    return NULL;
}

uint8_t *port_sectors(uint64_t lba, uint64_t count)
{
    return count <= disk.sectors && lba <= disk.sectors - count ? disk.bytes + lba * SECTOR : NULL;
}

static uint32_t word(const uint8_t *at)
{
    return at[0] | (uint32_t)at[1] << 8 | (uint32_t)at[2] << 16 | (uint32_t)at[3] << 24;
}

static uint64_t wide(const uint8_t *at)
{
    return word(at) | (uint64_t)word(at + 4) << 32;
}

static void put_word(uint8_t *at, uint32_t value)
{
    for (int byte = 0; byte < 4; byte++)
        at[byte] = value >> 8 * byte & 0xff;
}

/* Commands in the guest's memory (section 4.2) */

static uint8_t *header_of(uint32_t slot)
{
    return port_memory((port.clb | (uint64_t)port.clbu << 32) + 32 * slot, 32);
}

static uint8_t *table_of(uint32_t slot, uint64_t length)
{
    return port_memory(wide(header_of(slot) + 8) & ~0x7full, length);
}

static uint64_t lba_of(const uint8_t *fis)
{
    return fis[4] | fis[5] << 8 | fis[6] << 16 | (uint64_t)fis[8] << 24 | (uint64_t)fis[9] << 32 | (uint64_t)fis[10] << 40;
}

static void put_lba(uint8_t *bytes, uint64_t lba)
{
    for (int byte = 0; byte < 6; byte++)
        bytes[byte < 3 ? byte : byte + 1] = lba >> 8 * byte & 0xff;
}

/* Moves data between a buffer and the pieces of a slot's list, and answers how many bytes were moved. */
static uint32_t move(uint32_t slot, uint8_t *data, uint32_t length, bool to_memory)
{
    uint32_t entries = word(header_of(slot)) >> 16, done = 0;
    const uint8_t *list = table_of(slot, 0x80 + 16 * entries);
    for (uint32_t at = 0; list && at < entries && done < length; at++) {
        const uint8_t *entry = list + 0x80 + 16 * at;
        uint64_t address = wide(entry);
        uint32_t piece = (word(entry + 12) & 0x3fffff) + 1;
        if (piece > length - done)
            piece = length - done;
        uint8_t *memory = port_memory(address, piece);
        if (!memory)
            break;
        if (to_memory)
            memcpy(memory, data + done, piece);
        else
            memcpy(data + done, memory, piece);
        if (entry[15] & 0x80)
            port.is |= DPS;
        done += piece;
    }
    return done;
}

/* FISes from the device (sections 3.3.5, 3.3.8 and 4.2.1) */

static void put_fis(uint32_t offset, const uint8_t *fis, uint32_t length)
{
    uint8_t *area = port_memory(port.fb | (uint64_t)port.fbu << 32, 256);
    if (area && port.cmd & FRE)
        memcpy(area + offset, fis, length);
}

static void look_at(uint8_t status)
{
    if (status & ERR) {
        port.is |= TFES;
        port.halted = true;
    }
}

static void receive_register(uint32_t slot, uint8_t flags, uint8_t status, uint8_t error, uint64_t lba)
{
    uint8_t fis[20] = { 0x34, flags, status, error };
    put_lba(fis + 4, lba);
    put_fis(REGISTER, fis, sizeof fis);
    port.tfd = status | error << 8;
    if (flags & 0x40)
        port.is |= DHRS;
    look_at(status);
    if (!(status & (ERR | DRQ | BSY)))
        port.ci &= ~(1u << slot);
}

static void receive_bits(uint8_t status, uint8_t error, uint32_t tags)
{
    uint8_t fis[8] = { 0xa1, 0x40, status, error };
    put_word(fis + 4, tags);
    put_fis(SET_DEVICE_BITS, fis, sizeof fis);
    port.tfd = (port.tfd & 0x88) | (status & 0x77) | error << 8;
    port.sact &= ~tags;
    port.is |= SDBS;
    look_at(status);
}

static void receive_setup(uint32_t tag, const struct request *request)
{
    uint8_t fis[28] = { 0x41, request->write ? 0 : 0x20, 0, 0, tag };
    put_word(fis + 20, request->count * SECTOR);
    put_fis(DMA_SETUP, fis, sizeof fis);
}

/* PIO data-in: the FIS, the page, and its E_Status. */
static void send_page(uint32_t slot, uint8_t *page)
{
    uint8_t fis[20] = { 0x5f, 0x60, GOOD | DRQ };
    fis[15] = GOOD;
    put_word(fis + 16, SECTOR);
    put_fis(PIO_SETUP, fis, sizeof fis);
    put_word(header_of(slot) + 4, move(slot, page, SECTOR, true));
    port.tfd = GOOD;
    port.is |= PSS;
    port.ci &= ~(1u << slot);
}

/* The disk */

static void stop(uint32_t tag, uint8_t error, uint64_t lba)
{
    for (int each = 0; each < 32; each++)
        disk.requests[each].waits = false;
    disk.failed = true;
    disk.tag = tag;
    disk.error = error;
    disk.lba = lba;
}

static void take(uint32_t slot, const uint8_t *fis)
{
    uint32_t tag = fis[12] >> 3, count = fis[3] | fis[11] << 8;
    uint64_t lba = lba_of(fis);
    count = count ? count : 65536;
    if (disk.failed || tag >= disk.depth || disk.requests[tag].waits) {
        receive_register(slot, 0x40, GOOD | ERR, ABRT, 0);
    } else if (lba + count > disk.sectors) {
        uint64_t first = lba > disk.sectors ? lba : disk.sectors;
        stop(tag, IDNF, first);
        receive_register(slot, 0x40, GOOD | ERR, IDNF, first);
    } else {
        disk.requests[tag] = (struct request){ true, fis[2] == 0x61, lba, count };
        receive_register(slot, 0, GOOD, 0, 0);
    }
}

static void put_text(uint8_t *page, uint32_t first, uint32_t characters, const char *text)
{
    size_t length = strlen(text);
    for (uint32_t at = 0; at < characters; at++)
        page[2 * first + (at ^ 1)] = at < length ? text[at] : ' ';
}

static void identify(uint32_t slot)
{
    static const uint16_t words[][2] = { { 49, 0x0300 }, { 76, 0x010e }, { 80, 0x0400 }, { 83, 0x6400 }, { 84, 0x4020 }, { 86, 0x2400 }, { 87, 0x4020 } };
    uint8_t page[SECTOR] = { 0 };
    for (size_t at = 0; at < sizeof words / sizeof *words; at++) {
        page[2 * words[at][0]] = words[at][1] & 0xff;
        page[2 * words[at][0] + 1] = words[at][1] >> 8;
    }
    put_text(page, 10, 20, "1");
    put_text(page, 23, 8, "0.1");
    put_text(page, 27, 40, "SMALL PORT");
    put_word(page + 2 * 60, disk.sectors);
    put_word(page + 2 * 100, disk.sectors);
    page[2 * 75] = disk.depth - 1;
    send_page(slot, page);
}

/* READ LOG EXT of log 10h, page 0: the command that failed. */
static void read_log(uint32_t slot)
{
    uint8_t page[SECTOR] = { disk.tag, 0, 0x41, disk.error }, sum = 0;
    if (!disk.failed) {
        receive_register(slot, 0x40, GOOD | ERR, ABRT, 0);
        return;
    }
    put_lba(page + 4, disk.lba);
    for (uint32_t at = 0; at < 511; at++)
        sum += page[at];
    page[511] = -sum;
    disk.failed = false;
    send_page(slot, page);
}

bool port_complete(const uint8_t *tags, uint32_t count)
{
    uint32_t done = 0;
    for (uint32_t at = 0; at < count; at++) {
        if (port.halted || !disk.requests[tags[at] & 31].waits)
            return false;
    }
    for (uint32_t at = 0; at < count; at++) {
        struct request *request = &disk.requests[tags[at] & 31];
        receive_setup(tags[at] & 31, request);
        move(tags[at] & 31, port_sectors(request->lba, request->count), request->count * SECTOR, !request->write);
        request->waits = false;
        done |= 1u << (tags[at] & 31);
    }
    receive_bits(GOOD, 0, done);
    return true;
}

bool port_fail(uint32_t tag, uint8_t error, uint64_t lba)
{
    if (tag > 31 || !disk.requests[tag].waits)
        return false;
    stop(tag, error, lba);
    receive_bits(GOOD | ERR, error, 0);
    return true;
}

/* Registers (sections 3.1 and 3.3) */

static void fetch(uint32_t slot)
{
    const uint8_t *fis = table_of(slot, 0x80);
    if (!fis)
        return;
    switch (fis[2]) {
    case 0x60:
    case 0x61:
        take(slot, fis);
        break;
    case 0xea:
        receive_register(slot, 0x40, GOOD, 0, 0);
        break;
    case 0xec:
        identify(slot);
        break;
    case 0x2f:
        read_log(slot);
        break;
    default:
        receive_register(slot, 0x40, GOOD | ERR, ABRT, 0);
    }
}

static void issue(uint32_t slots)
{
    port.ci |= slots;
    for (uint32_t slot = 0; slot < 32; slot++) {
        if (slots >> slot & 1 && !port.halted)
            fetch(slot);
    }
}

static void write_cmd(uint32_t value)
{
    if (port.cmd & ST && !(value & ST)) {
        port.sact = port.ci = 0;
        port.halted = false;
        for (int tag = 0; tag < 32; tag++)
            disk.requests[tag].waits = false;
    }
    port.cmd = (value & (ST | FRE)) | (value & ST ? CR : 0) | (value & FRE ? FR : 0);
}

uint32_t port_read(uint32_t offset)
{
    switch (offset) {
    case 0x000: return 0xc0000000u | 31 << 8; /* S64A, SNCQ, 32 slots */
    case 0x004: return 0x80000000u;
    case 0x00c: return 1;
    case 0x010: return 0x00010300u;
    case 0x100: return port.clb;
    case 0x104: return port.clbu;
    case 0x108: return port.fb;
    case 0x10c: return port.fbu;
    case 0x110: return port.is;
    case 0x114: return port.ie;
    case 0x118: return port.cmd;
    case 0x120: return port.tfd;
    case 0x124: return 0x101;
    case 0x128: return 0x133;
    case 0x12c: return port.sctl;
    case 0x134: return port.sact;
    case 0x138: return port.ci;
    default: return 0;
    }
}

void port_write(uint32_t offset, uint32_t value)
{
    switch (offset) {
    case 0x100: port.clb = value & ~0x3ffu; break;
    case 0x104: port.clbu = value; break;
    case 0x108: port.fb = value & ~0xffu; break;
    case 0x10c: port.fbu = value; break;
    case 0x110: port.is &= ~value; break;
    case 0x114: port.ie = value; break;
    case 0x118: write_cmd(value); break;
    case 0x12c: port.sctl = value; break;
    case 0x134: port.sact |= value; break;
    case 0x138: issue(value); break;
    }
}
