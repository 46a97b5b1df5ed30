/* Two writes of one sector, served in the opposite order: the sector has the bytes of the one that was completed last. */
#include "ahci.h"
#include <stdio.h>
#include <stdlib.h>
#include <string.h>

static void need(uint32_t status, const char *what)
{
    if (status != AHCI_OK) {
        printf("%s: status %u\n", what, (unsigned)status);
        exit(1);
    }
}

int main(void)
{
    ahci_port port = AHCI_PORT_EMPTY;
    uint8_t first[AHCI_SECTOR_BYTES], second[AHCI_SECTOR_BYTES], read[AHCI_SECTOR_BYTES];
    const uint8_t opposite[] = { 1, 0 }, reader[] = { 2 };
    uint64_t number[3];
    ahci_stepped done;
    ahci_reply reply;
    uint32_t word;

    memset(first, 0xAA, sizeof first);
    memset(second, 0xBB, sizeof second);
    need(ahci_port_new_zeros(&port, 64, 32), "new");
    need(ahci_port_submit(&port, 0, AHCI_WRITE, 5, 1, first, sizeof first, &number[0]), "first write");
    need(ahci_port_submit(&port, 1, AHCI_WRITE, 5, 1, second, sizeof second, &number[1]), "second write");
    need(ahci_port_register(&port, 0x134, &word), "PxSACT");
    printf("PxSACT %08x\n", (unsigned)word);
    need(ahci_port_accept(&port, 0, &done), "accept 0");
    need(ahci_port_accept(&port, 1, &done), "accept 1");
    need(ahci_port_serve(&port, opposite, sizeof opposite, &done), "serve 1 0");
    printf("entries %llu and %llu complete tags 1 and 0\n", (unsigned long long)done.first, (unsigned long long)(done.first + 1));
    need(ahci_port_collect(&port, 0, number[0], &reply, read, 0), "collect 0");
    need(ahci_port_collect(&port, 1, number[1], &reply, read, 0), "collect 1");

    need(ahci_port_submit(&port, 2, AHCI_READ, 5, 1, read, 0, &number[2]), "read");
    need(ahci_port_accept(&port, 2, &done), "accept 2");
    need(ahci_port_serve(&port, reader, sizeof reader, &done), "serve 2");
    if (ahci_port_collect(&port, 2, number[2], &reply, read, 511) != AHCI_BUFFER_TOO_SMALL)
        return 1;
    need(ahci_port_collect(&port, 2, number[2], &reply, read, sizeof read), "collect 2");
    printf("read %llu bytes of %02x by entry %llu\n", (unsigned long long)reply.bytes, read[511], (unsigned long long)reply.entry);
    if (ahci_port_collect(&port, 2, number[2], &reply, read, sizeof read) != AHCI_STRANGER)
        return 1;
    need(ahci_port_free(&port), "free");
    return ahci_port_free(&port) == AHCI_NO_PORT ? 0 : 1;
}
