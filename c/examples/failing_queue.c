/* The second of three commands fails: the port halts, recovers, answers the failed one, and goes on with the others. */
#include "ahci.h"
#include <stdio.h>
#include <stdlib.h>
#include <string.h>

static void need(uint32_t status, const char *what)
{
    if (status != AHCI_OK) {
        printf("%s: status %u\n", what, (unsigned)status);
        exit(1);
    }
}

int main(void)
{
    ahci_port port = AHCI_PORT_EMPTY;
    uint8_t data[AHCI_SECTOR_BYTES];
    uint64_t number[3];
    ahci_stepped done;
    ahci_reply reply;
    ahci_tag_sets sets;
    uint32_t word, tag;
    const uint32_t offsets[] = { 0x110, 0x120, 0x134, 0x138 };

    memset(data, 0x5A, sizeof data);
    need(ahci_port_new_zeros(&port, 1000, 32), "new");
    for (tag = 0; tag < 3; tag++) {
        need(ahci_port_submit(&port, tag, AHCI_WRITE, 7 + tag, 1, data, sizeof data, &number[tag]), "submit");
        need(ahci_port_accept(&port, tag, &done), "accept");
    }
    printf("a sector that is none of the command's: status %u\n", (unsigned)ahci_port_fail(&port, 1, 0x40, 7, &done));
    need(ahci_port_fail(&port, 1, 0x40, 8, &done), "fail");
    for (size_t i = 0; i < sizeof offsets / sizeof *offsets; i++) {
        need(ahci_port_register(&port, offsets[i], &word), "register");
        printf("register %03xh: %08x\n", (unsigned)offsets[i], (unsigned)word);
    }
    printf("a command on a halted port: status %u\n",
           (unsigned)ahci_port_submit(&port, 5, AHCI_READ, 0, 1, data, 0, &number[0]));
    need(ahci_port_recover(&port, &tag), "recover");
    need(ahci_port_collect(&port, tag, number[tag], &reply, data, sizeof data), "collect");
    printf("tag %u has failed with error %02x at sector %llu\n", (unsigned)tag, (unsigned)reply.error, (unsigned long long)reply.lba);
    need(ahci_port_tag_sets(&port, &sets), "tag_sets");
    printf("held: %08x\n", (unsigned)sets.held);
    for (tag = 0; tag < 3; tag += 2) {
        const uint8_t list[] = { (uint8_t)tag };
        need(ahci_port_reissue(&port, tag), "reissue");
        need(ahci_port_accept(&port, tag, &done), "accept again");
        need(ahci_port_serve(&port, list, 1, &done), "serve");
        need(ahci_port_collect(&port, tag, number[tag], &reply, data, 0), "collect again");
    }
    for (uint64_t lba = 7; lba < 10; lba++) {
        need(ahci_port_copy(&port, lba, data, sizeof data), "copy");
        printf("sector %llu: %02x\n", (unsigned long long)lba, data[0]);
    }
    need(ahci_port_free(&port), "free");
    return 0;
}
