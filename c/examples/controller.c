/* A controller, the memory of its driver, and the loop of docs/C.md between them: a sector is written by a queued command, and read by one that is not. */
#include "ahci.h"
#include <stdbool.h>
#include <stdio.h>
#include <stdlib.h>
#include <string.h>

enum { LIST = 0, AREA = 0x400, TABLE = 0x1000, DATA = 0x2000, BYTES = 0x3000 };              /* places in the driver's memory */
enum { GHC = 0x04, IS = 0x08, CLB = 0x100, FB = 0x108, PX_IS = 0x110, PX_IE = 0x114, CMD = 0x118, SIG = 0x124, SERR = 0x130, SACT = 0x134, CI = 0x138 }; /* section 3 */

static uint8_t memory[BYTES];
static bool interrupt;

static void need(uint32_t status, const char *what)
{
    if (status != AHCI_OK) {
        printf("%s: status %u\n", what, (unsigned)status);
        exit(1);
    }
}

/* The lowest slot that has a step; 32 if there is none. */
static uint32_t choose(const uint8_t *next)
{
    uint32_t slot = 0;
    while (slot < 32 && next[slot] == AHCI_STEP_NONE)
        slot++;
    return slot;
}

/* Where the controller reads or writes next; a device would report an address that is no memory by ahci_hba_unmapped. */
static uint8_t *at(const ahci_hba_state *s)
{
    if (s->address > BYTES || s->length > BYTES - s->address) {
        printf("no memory at %llx\n", (unsigned long long)s->address);
        exit(1);
    }
    return memory + s->address;
}

/* The device's turn. */
static void turn(ahci_hba *hba)
{
    ahci_hba_state s;
    uint64_t entries;
    uint32_t slot;
    while (ahci_hba_look(hba, &s) == AHCI_OK) {
        if (s.want == AHCI_WANT_READ) {
            need(ahci_hba_supply(hba, at(&s), s.length), "supply");
        } else if (s.want == AHCI_WANT_WRITE) {
            need(ahci_hba_bytes(hba, at(&s), s.length), "bytes");
            need(ahci_hba_written(hba), "written");
        } else if (s.sign) {
            need(ahci_hba_sign(hba), "sign");
        } else if ((slot = choose(s.next)) < 32) {
            need(ahci_hba_step(hba, slot, &entries), "step");
        } else {
            break;
        }
    }
    interrupt = s.interrupt;
}

static void write_register(ahci_hba *hba, uint32_t offset, uint32_t word)
{
    uint64_t entries;
    need(ahci_hba_write(hba, offset, 4, word, &entries), "write");
    turn(hba);
}

static uint32_t read_register(ahci_hba *hba, uint32_t offset)
{
    uint64_t word;
    need(ahci_hba_read(hba, offset, 4, &word), "read");
    return (uint32_t)word;
}

/* Lays a command of one sector into slot 0: its header (4.2.2), its command FIS, and a PRDT of one entry (4.2.3). */
static void lay(const uint8_t fis[20], bool writes)
{
    const uint8_t header[32] = { writes ? 0x45 : 0x05, 0, 1, 0, 0, 0, 0, 0, TABLE & 0xFF, TABLE >> 8 };
    const uint8_t entry[16] = { DATA & 0xFF, DATA >> 8, 0, 0, 0, 0, 0, 0, 0, 0, 0, 0, 0xFF, 0x01 };
    memcpy(memory + LIST, header, sizeof header);
    memcpy(memory + TABLE, fis, 20);
    memcpy(memory + TABLE + 0x80, entry, sizeof entry);
}

static void answered(ahci_hba *hba, const char *what)
{
    const uint8_t *count = memory + LIST + 4;
    printf("%s: interrupt %d, PxIS %08x, PxCI %08x, PRDBC %u\n", what, interrupt, (unsigned)read_register(hba, PX_IS), (unsigned)read_register(hba, CI), count[0] | count[1] << 8u);
    write_register(hba, PX_IS, 0xFFFFFFFF);
    write_register(hba, IS, 1);
}

int main(void)
{
    static const uint8_t image[64 * AHCI_SECTOR_BYTES];
    static const uint8_t queued_write[20] = { 0x27, 0x80, 0x61, 1, 5, 0, 0, 0x40 };       /* WRITE FPDMA QUEUED, one sector from LBA 5, tag 0 */
    static const uint8_t plain_read[20] = { 0x27, 0x80, 0x25, 0, 5, 0, 0, 0x40, 0, 0, 0, 0, 1 }; /* READ DMA EXT of it */
    ahci_hba hba = AHCI_HBA_EMPTY;

    need(ahci_hba_new(&hba, image, sizeof image, 32), "new");
    write_register(&hba, GHC, 0x80000000); /* AE */
    write_register(&hba, CLB, LIST);
    write_register(&hba, FB, AREA);
    write_register(&hba, CMD, 0x16); /* FRE, with POD and SUD: the signature can be written */
    printf("PxSIG %08x\n", (unsigned)read_register(&hba, SIG));
    write_register(&hba, SERR, 0xFFFFFFFF); /* the link has come up: DIAG.X and DIAG.N, and with them PCS and PRCS */
    write_register(&hba, PX_IE, 0xFFFFFFFF);
    write_register(&hba, GHC, 0x80000002); /* AE and IE */
    write_register(&hba, CMD, 0x17);       /* ST */

    memset(memory + DATA, 0xAA, AHCI_SECTOR_BYTES);
    lay(queued_write, true);
    write_register(&hba, SACT, 1);
    write_register(&hba, CI, 1);
    answered(&hba, "WRITE FPDMA QUEUED");

    memset(memory + DATA, 0, AHCI_SECTOR_BYTES);
    lay(plain_read, false);
    write_register(&hba, CI, 1);
    answered(&hba, "READ DMA EXT");
    printf("the sector has bytes %02x to %02x\n", memory[DATA], memory[DATA + 511]);
    need(ahci_hba_free(&hba), "free");
    return 0;
}
