/* How many commands of one sector go from ahci_port_submit to ahci_port_collect in a second of one processor, and how long the library takes for a request
   of 4 KiB of a controller, from the driver's write to PxCI to the interrupt. The journal is trimmed after each 4,096 commands, once as glibc's malloc is by
   itself, which gives the journal's memory back to the system then, and once where it keeps freed memory. What is printed is a measurement of this
   build on this machine.

       rate [COMMANDS]    of each kind; 300,000 if not given */
#define _POSIX_C_SOURCE 200809L
#include "ahci.h"
#include <limits.h>
#include <malloc.h>
#include <stdio.h>
#include <stdlib.h>
#include <string.h>
#include <time.h>

#define TRIM 4096
#define SECTORS 64
#define RUN(call) do { uint32_t s = (call); if (s != AHCI_OK) { fprintf(stderr, "rate.c:%d: status %u\n", __LINE__, (unsigned)s); exit(1); } } while (0)

static unsigned commands = 300000;

static double seconds(void)
{
    struct timespec now;
    clock_gettime(CLOCK_PROCESS_CPUTIME_ID, &now);
    return (double)now.tv_sec + (double)now.tv_nsec / 1e9;
}

static void rate(const char *what, uint32_t kind)
{
    static uint8_t data[AHCI_SECTOR_BYTES];
    ahci_port port = AHCI_PORT_EMPTY;
    const uint8_t tag = 0;
    ahci_stepped step;
    ahci_reply reply;
    uint64_t number, entries;
    RUN(ahci_port_new_zeros(&port, SECTORS, 1));
    const double begun = seconds();
    for (unsigned i = 1; i <= commands; i++) {
        data[0] = (uint8_t)i;
        RUN(ahci_port_submit(&port, 0, kind, i % SECTORS, 1, data, kind == AHCI_WRITE ? sizeof data : 0, &number));
        RUN(ahci_port_accept(&port, 0, &step));
        RUN(ahci_port_serve(&port, &tag, 1, &step));
        RUN(ahci_port_collect(&port, 0, number, &reply, data, sizeof data));
        if (i % TRIM == 0)
            RUN(ahci_port_trim(&port, &entries));
    }
    printf("%s: %.0f a second\n", what, commands / (seconds() - begun));
    RUN(ahci_port_free(&port));
}

/* ---- a controller, and a driver's memory ---- */

#define PAGE 4096u          /* bytes of a request */
#define LIST 0x0u           /* the command list, 32 headers */
#define AREA 0x400u         /* the received FIS area */
#define TABLES 0x1000u      /* 32 command tables of 256 bytes */
#define DATA 0x10000u       /* 32 pages */
#define PX_IS 0x110u
#define PX_CI 0x138u
#define PX_SACT 0x134u

static uint8_t memory[DATA + 32 * PAGE];

static void put(uint8_t *to, uint64_t value, unsigned bytes)
{
    for (unsigned i = 0; i < bytes; i++)
        to[i] = (uint8_t)(value >> 8 * i);
}

static void write_register(ahci_hba *hba, uint32_t offset, uint32_t value)
{
    uint64_t entries;
    RUN(ahci_hba_write(hba, offset, 4, value, &entries));
}

/* The device's turn: until the controller has nothing more to do. */
static void turn(ahci_hba *hba)
{
    ahci_hba_state it;
    uint64_t entries;
    for (;;) {
        unsigned slot = 0;
        RUN(ahci_hba_look(hba, &it));
        if (it.want == AHCI_WANT_READ) {
            RUN(ahci_hba_supply(hba, memory + it.address, it.length));
            continue;
        }
        if (it.want == AHCI_WANT_WRITE) {
            RUN(ahci_hba_bytes(hba, memory + it.address, it.length));
            RUN(ahci_hba_written(hba));
            continue;
        }
        if (it.sign) {
            RUN(ahci_hba_sign(hba));
            continue;
        }
        while (slot < 32 && !it.next[slot])
            slot++;
        if (slot == 32)
            return;
        RUN(ahci_hba_step(hba, slot, &entries));
    }
}

/* READ or WRITE FPDMA QUEUED of eight sectors in a slot, with one entry in its PRDT. */
static void lay(unsigned slot, uint32_t kind, unsigned lba)
{
    uint8_t *header = memory + LIST + 32 * slot, *table = memory + TABLES + 256 * slot;
    memset(header, 0, 32);
    memset(table, 0, 256);
    put(header, kind == AHCI_WRITE ? 0x10045 : 0x10005, 4);
    put(header + 8, TABLES + 256 * slot, 8);
    put(table, 0x00608027 + ((uint32_t)(kind == AHCI_WRITE) << 16), 4);
    table[3] = PAGE / AHCI_SECTOR_BYTES;
    put(table + 4, lba, 3);
    table[7] = 0x40;
    table[12] = (uint8_t)(slot << 3);
    put(table + 0x80, DATA + PAGE * slot, 8);
    put(table + 0x8c, PAGE - 1, 4);
}

static void start(ahci_hba *hba)
{
    static const uint8_t image[64 * PAGE];
    RUN(ahci_hba_new(hba, image, sizeof image, 32));
    write_register(hba, 0x04, 0x80000000);
    write_register(hba, 0x100, LIST);
    write_register(hba, 0x108, AREA);
    write_register(hba, 0x118, 0x16);
    turn(hba);
    write_register(hba, 0x114, 0xffffffff);
    write_register(hba, 0x04, 0x80000002);
    write_register(hba, 0x118, 0x17);
    turn(hba);
}

/* So many requests at a time; the time is the library's and this driver's. */
static void rate_of_requests(const char *what, uint32_t kind, unsigned depth)
{
    ahci_hba hba = AHCI_HBA_EMPTY;
    ahci_hba_state it;
    uint64_t entries;
    const uint32_t slots = depth == 32 ? UINT32_MAX : (UINT32_C(1) << depth) - 1;
    unsigned done = 0, since = 0;
    start(&hba);
    const double begun = seconds();
    for (; done < commands / 4; done += depth) {
        for (unsigned slot = 0; slot < depth; slot++)
            lay(slot, kind, (done + slot) % 64 * 8);
        write_register(&hba, PX_SACT, slots);
        write_register(&hba, PX_CI, slots);
        turn(&hba);
        RUN(ahci_hba_look(&hba, &it));
        if (!it.interrupt) {
            fprintf(stderr, "rate.c: no interrupt\n");
            exit(1);
        }
        write_register(&hba, PX_IS, 0xffffffff);
        write_register(&hba, 0x08, 1);
        since += depth;
        if (since >= TRIM) {
            RUN(ahci_hba_trim(&hba, &entries));
            since = 0;
        }
    }
    printf("%s of 4 KiB through a controller, %u at a time: %.2f microseconds each\n", what, depth, 1e6 * (seconds() - begun) / done);
    RUN(ahci_hba_free(&hba));
}

static void all(void)
{
    rate("writes", AHCI_WRITE);
    rate("reads", AHCI_READ);
    for (unsigned depth = 1; depth <= 32; depth += 31) {
        rate_of_requests("writes", AHCI_WRITE, depth);
        rate_of_requests("reads", AHCI_READ, depth);
    }
}

int main(int count, char **words)
{
    if (count > 1)
        commands = (unsigned)strtoul(words[1], NULL, 10);
    all();
    mallopt(M_MMAP_THRESHOLD, 32 << 20);
    mallopt(M_TRIM_THRESHOLD, INT_MAX);
    puts("freed memory is kept:");
    all();
    return 0;
}
