/* A shadow of one controller, for hba_random.c: its registers, the driver's memory and the disk's image, and what becomes of them when the link goes or comes
   up. It is a second, plain reading of the standards and of docs/LAYOUTS.md, and knows the library by its calls alone. The registers are in
   hba_shadow_registers.h, the commands in hba_shadow_commands.h, and their answers in hba_shadow_answers.h. */
#include "ahci.h"
#include <stdio.h>
#include <stdlib.h>
#include <string.h>

#define SECTORS 16u         /* of a disk at most */
#define LOW 0x1000u         /* the driver's memory: at LOW and at HIGH */
#define HIGH 0x100000000u
#define PIECES 2048u        /* no more entries are in it */
#define KEPT 0x10000u       /* bytes of a command that are compared */
#define CHECK(it) do { if (!(it)) { fprintf(stderr, "%s, line %d: %s\n", __FILE__, __LINE__, #it); abort(); } } while (0)

/* Bits of PxIS, PxTFD and PxSERR (AHCI 1.3.1, sections 3.3.5, 3.3.8 and 3.3.12). */
enum { DHRS = 1, PSS = 2, SDBS = 8, DPS = 1 << 5, OFS = 1 << 24, INFS = 1 << 26, IFS = 1 << 27, HBDS = 1 << 28, HBFS = 1 << 29, TFES = 1 << 30 };
enum { UFS = 1 << 4, DIAG_F = 1 << 25 };
enum { BSY = 0x80, DRQ = 8, ERR = 1 };
enum { DIAG_X = 1 << 26, DIAG_W = 1 << 18, DIAG_N = 1 << 16, ERR_P = 1 << 10, ERR_T = 1 << 8, ERR_I = 1 << 0 };

static ahci_hba hba;
static ahci_hba_state look;
static uint8_t low[0x8000], high[0x4000], image[SECTORS * AHCI_SECTOR_BYTES];
static uint64_t first, seen; /* numbers of the journal */

/* What the controller can do, and how many queued commands the disk takes. */
static ahci_hba_capabilities can = AHCI_HBA_USUAL;
static uint32_t depth = 32;
/* The disk's sectors, and its serial number (ACS-3, IDENTIFY DEVICE, words 10 to 19). */
static uint32_t has;
static char serial[21];
/* The registers: CCS, the slot with the highest priority, ATAPI and DLAE with ALPE and ASP, the link's speed, and IPS as `pending` among them. A link
   that listens waits for SUD. PxIS is without PCS and PRCS, which are PxSERR's. */
static struct {
    uint32_t clb, clbu, fb, fbu, is, ie, tfd, sig, serr, sctl, sact, ci, ccs, first, lights, speed;
    bool on, receiving, halted, enabled, pending, sud;
    enum link { UP, RESET = 1, OFFLINE = 4, LISTENS = 16 } link;
} reg;
/* The FIS of the signature: none is due, or it can be taken, or it was taken and not posted. And how far a software reset is: the second control
   FIS, that of soft_slot, ends it. */
static enum signature { PAST, DUE, UNPOSTED } signature;
static enum soft { OFF, HELD, ENDING } soft;
static uint32_t soft_slot;
static uint32_t told; /* the signature that was taken and not posted, as PxSIG has it */
static bool failed; /* a queued command has failed, and its log is not read */
/* A command that isn't queued came under queued ones, which ended all of them (Serial ATA, NCQ), with this error; and log 10h is not read. */
static bool mixed;
static uint8_t mixed_error;
/* Counters 001h and 00Ah of the Phy (Serial ATA, "Phy Event Counters"): the disk's power resets them, and READ LOG with bit 0 of the features does. */
static uint16_t icrc_ends, signatures;
static enum power { ACTIVE, IDLE, STANDBY, SLEEP } power; /* the device's power mode (ACS-3, "Power Management feature set") */
static bool pulled; /* the disk is pulled out */
static bool has_base; /* it is over a base */
/* What the disk keeps (ACS-3, SET FEATURES, SET MULTIPLE MODE, SMART, WRITE BUFFER): the level of APM is 0 if it is disabled, and so are the sectors of a block of READ and
   WRITE MULTIPLE; the logs of self-tests are without their checksums. Logs 80h to 9Fh are the host's, of 16 pages each (ACS-3, "Host Specific logs"): no reset changes them.
   With trim_zeros a trimmed sector reads as zeros (ACS-3, word 69, DRAT and RZAT). */
static struct {
    bool has_cache, cache, ahead, reverts, smart, trim_zeros;
    uint8_t level, mode, per_block, tests[AHCI_PAGE_BYTES], more_tests[AHCI_PAGE_BYTES], buffer[AHCI_PAGE_BYTES], logs[32][16][AHCI_PAGE_BYTES];
} disk;
static uint8_t page[AHCI_PAGE_BYTES]; /* the log of that */
/* Sectors that can't be read (ACS-3, "WRITE UNCORRECTABLE EXT"): neither a reset nor a power cycle makes them good, and only a write does. */
static bool unreadable[SECTORS];

/* Sectors that a TRIM names, by the first of them and how many. And those that one has made zeros and of which the journal's entry was not seen yet: none, if there are no sectors. */
struct range { uint64_t lba; uint32_t sectors; };
static struct range zeroed;

/* A FIS of the device, or none, and whether it is still to be written to the received FIS area. */
struct fis { uint8_t bytes[28]; uint32_t size; bool due; };
static const struct fis no_fis;

/* The commands that were read, by slot. Of the list: how many bytes it has, and which run and which of its bytes the data have come to; of an entry I, which asks to be
   told once its data have moved. */
enum kind { OTHER, QUEUE, READ, WRITE, PAGE, STORE, CONTROL };
static struct command {
    bool there, sent, accepted, queued, writes, pio, multiple, error_log, long_log, host_log, is_smart, resets, has_48_bits;
    enum kind kind;
    uint8_t fis[20];
    uint64_t lba, moved, room, used, into;
    uint32_t sectors, pages, pieces, piece, entry, ranges; /* of a TRIM: the LBA Range Entry that comes next, and how many have become zeros */
    struct { uint64_t at, bytes; bool asks; } list[PIECES];
    uint8_t bytes[KEPT]; /* of a write as they were read, of a read as the image had them */
} slots[32];

/* What is read: the command of a slot, up to a place. What is written: an answer, as long as any of it is left; `spills` if its data have no room, and `tells` if
   an entry that asks for it has moved whole with them. And
   a command whose sectors the queue has moved, or whose answer goes block by block: how many sectors there are, have moved and are in a block, and the FIS behind them. */
static struct { bool on, clears; uint32_t slot, phase, entries, piece; uint64_t table, left; } fetch;
static struct { bool on, counts, spills, tells, signs, unasked; struct fis before, after; uint32_t slot, signature; uint64_t left; } answer;
static struct { bool on, begun; uint32_t slot, sectors, past, per_block; struct fis end; } transfer;

static struct {
    unsigned long done, halts, dropped, trims, blocks, long_blocks, spilled, stuck, partial, deep, slept, lost, found, pulled, other, tries, broken, ended, foreign, unasked, stored,
        left, lost_bytes, mixed, icrc, spoiled, unread, mended, told, logged, reread, advised, outside, zeroed, overlapped, far, several, cut, lacked, lacked_zeros, woken;
} counted;

static uint8_t *memory(uint64_t at, uint64_t count)
{
    if (at >= LOW && at - LOW <= sizeof low && count <= sizeof low - (at - LOW))
        return low + (at - LOW);
    if (at >= HIGH && at - HIGH <= sizeof high && count <= sizeof high - (at - HIGH))
        return high + (at - HIGH);
    return NULL;
}

static uint64_t little(const uint8_t *at, uint32_t count)
{
    uint64_t value = 0;
    while (count--)
        value = value << 8 | at[count];
    return value;
}

static void put(uint8_t *at, uint64_t value, uint32_t count)
{
    for (uint32_t i = 0; i < count; i++)
        at[i] = (uint8_t)(value >> 8 * i);
}

static uint64_t list_base(void) { return reg.clb | (uint64_t)reg.clbu << 32; }
static uint64_t fis_base(void) { return reg.fb | (uint64_t)reg.fbu << 32; }

/* An address as the controller has it: of 32 bits without S64A. */
static uint64_t reach(uint64_t at) { return can.s64a ? at : at & 0xFFFFFFFFu; }

/* The slots that the command list has. */
static uint32_t listed(uint32_t bits) { return can.ncs < 32 ? bits & ((1u << can.ncs) - 1) : bits; }

static uint32_t driven(uint32_t offset)
{
    uint64_t value = ~(uint64_t)0;
    CHECK(ahci_hba_read(&hba, offset, 4, &value) == AHCI_OK && value >> 32 == 0);
    return (uint32_t)value;
}

static bool is_busy_with_one(void) { return reg.tfd & (BSY | DRQ); }

/* PxIS as a driver reads it: UFS is DIAG.F, PCS is DIAG.X, and PRCS is DIAG.N (section 3.3.5). */
static uint32_t interrupts(void) { return reg.is | (reg.serr & DIAG_F ? UFS : 0) | (reg.serr & DIAG_X ? 0x40 : 0) | (reg.serr & DIAG_N ? 0x400000 : 0); }

/* IPS is set if a bit of PxIS is enabled in PxIE. */
static void interrupt(void) { reg.pending = reg.pending || interrupts() & reg.ie; }

/* ---- the link, and what ends all commands ---- */

/* Commands are dropped, and nothing is read or written any more. */
static void drop(void)
{
    for (uint32_t slot = 0; slot < 32; slot++) {
        counted.dropped += slots[slot].there;
        counted.cut += slots[slot].there && slots[slot].ranges;
        slots[slot].there = false;
    }
    fetch.on = answer.on = transfer.on = false;
}

/* A reset of the device, of whatever kind: it is what ends Sleep, and then the device is in Standby. */
static void is_reset(void) { power = power == SLEEP ? STANDBY : power; }

/* A hardware reset or power-on: SET FEATURES and SET MULTIPLE MODE are as at first, with Ultra DMA mode 5. SMART stays enabled or disabled (ACS-3, SMART ENABLE OPERATIONS). */
static void reverts(void)
{
    disk.cache = disk.has_cache;
    disk.ahead = true;
    disk.level = 0;
    disk.reverts = false;
    disk.mode = 0x45;
    disk.per_block = 0;
}

/* The link comes up, at the speed that CAP and PxSCTL allow, and the device, which is reset by COMRESET or before it sends COMINIT, sends its signature. */
static void come_up(void)
{
    const uint32_t limit = reg.sctl >> 4 & 15;
    is_reset();
    reg.link = UP;
    reg.speed = limit >= 1 && limit <= 3 && limit < can.iss ? limit : can.iss;
    reg.tfd = BSY;
    reg.serr |= DIAG_X | DIAG_W | DIAG_N;
    signature = DUE;
    soft = OFF;
}

static void go_down(void)
{
    reg.serr |= reg.link == UP ? DIAG_N : 0;
    reg.sact = reg.ci = 0;
    reg.tfd = 0x7F;
    reg.sig = 0xFFFFFFFF;
    reg.halted = failed = mixed = false;
    signature = PAST;
    soft = OFF;
    is_reset();
    reverts();
    drop();
}

/* A disk that is pulled out answers no COMRESET, and then the link is as one that listens: PxSSTS is 0. That PxCI and PxSACT go with each change of DET is open
   while ST is 1 (section 3.3.11). */
static void link_to(enum link link)
{
    if (link == UP && pulled)
        link = LISTENS;
    if (link != UP && link != reg.link)
        go_down();
    if (link == UP && reg.link != UP)
        come_up();
    reg.link = link;
}

/* SUD of PxCMD: from 0 to 1 it resets a link that is up, and a device that waits comes up (section 3.3.7). */
static void spin(bool sud)
{
    if (sud && !reg.sud && (reg.link == UP || reg.link == LISTENS)) {
        if (reg.link == UP)
            link_to(RESET);
        link_to(UP);
    }
    reg.sud = sud;
}

/* A reset of the HBA: as after power-on, but PxCLB, PxCLBU, PxFB and PxFBU stay (section 10.4.3), and so does a power mode other than Sleep. */
static void reset_hba(void)
{
    go_down();
    reg.is = reg.ie = reg.serr = reg.sctl = reg.lights = reg.ccs = reg.first = 0;
    reg.on = reg.receiving = reg.enabled = reg.pending = false;
    reg.sud = !can.sss;
    reg.link = LISTENS;
    if (!can.sss && !pulled)
        come_up();
}

static void power_on(void)
{
    reset_hba();
    reg.clb = reg.clbu = reg.fb = reg.fbu = 0;
    power = ACTIVE;
    icrc_ends = signatures = 0;
}

/* A disk that has never been used: SMART is enabled, and its logs have their revision and no test. */
static void is_new(const char *name, uint32_t sectors)
{
    const bool has_cache = disk.has_cache, trim_zeros = disk.trim_zeros;
    memset(&disk, 0, sizeof disk);
    disk.has_cache = has_cache;
    disk.trim_zeros = trim_zeros;
    disk.tests[0] = disk.more_tests[0] = 1;
    disk.smart = true;
    memset(unreadable, 0, sizeof unreadable);
    reverts();
    has = sectors;
    memcpy(serial, name, sizeof serial);
}

/* A new controller, over sectors of which no two are alike. */
static void begin(void)
{
    memset(&reg, 0, sizeof reg);
    pulled = has_base = false;
    disk.has_cache = disk.trim_zeros = false;
    is_new("00000001            ", SECTORS);
    power_on();
    memset(low, 0, sizeof low);
    memset(high, 0, sizeof high);
    for (uint32_t i = 0; i < sizeof image; i++)
        image[i] = (uint8_t)(i + 7 * (i / AHCI_SECTOR_BYTES));
    for (uint32_t slot = 0; slot < 32; slot++)
        slots[slot].there = slots[slot].sent = false;
    first = seen = 0;
    CHECK(ahci_hba_new_with(&hba, image, sizeof image, depth, &can) == AHCI_OK && ahci_hba_new(&hba, image, sizeof image, depth) == AHCI_PORT_THERE);
}
