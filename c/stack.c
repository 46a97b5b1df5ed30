/* How much stack the calls take: a story of calls runs on a thread whose stack was filled with one byte before. What is printed
   is a measurement of this build on this machine, and no promise. */
#define _DEFAULT_SOURCE
#include "ahci.h"
#include <pthread.h>
#include <stdio.h>
#include <stdlib.h>
#include <string.h>
#include <sys/mman.h>

#define STACK (1 << 20)
#define FILL 0xA5
#define RUN(call) do { uint32_t s = (call); if (s != AHCI_OK) { fprintf(stderr, "stack.c:%d: status %u\n", __LINE__, (unsigned)s); exit(1); } } while (0)

static uint8_t data[256 * AHCI_SECTOR_BYTES];

/* Each kind of call that a port has, with a failure and its way back. */
static void *story(void *unused)
{
    ahci_port port = AHCI_PORT_EMPTY;
    const uint8_t list[] = { 0, 1 };
    uint64_t number[3], entries;
    ahci_stepped done;
    ahci_reply reply;
    uint32_t tag;
    RUN(ahci_port_new_zeros(&port, 1024, 32));
    RUN(ahci_port_submit(&port, 0, AHCI_WRITE, 0, 256, data, sizeof data, &number[0]));
    RUN(ahci_port_submit(&port, 1, AHCI_READ, 0, 256, data, 0, &number[1]));
    RUN(ahci_port_submit(&port, 2, AHCI_READ, 7, 1, data, 0, &number[2]));
    RUN(ahci_port_accept(&port, 0, &done));
    RUN(ahci_port_accept(&port, 1, &done));
    RUN(ahci_port_serve(&port, list, 2, &done));
    RUN(ahci_port_accept(&port, 2, &done));
    RUN(ahci_port_fail(&port, 2, 0x40, 7, &done));
    RUN(ahci_port_recover(&port, &tag));
    RUN(ahci_port_collect(&port, 0, number[0], &reply, data, 0));
    RUN(ahci_port_collect(&port, 1, number[1], &reply, data, sizeof data));
    RUN(ahci_port_collect(&port, 2, number[2], &reply, data, AHCI_SECTOR_BYTES));
    RUN(ahci_port_identify(&port, data, AHCI_PAGE_BYTES));
    RUN(ahci_port_flush(&port));
    RUN(ahci_port_trim(&port, &entries));
    RUN(ahci_port_free(&port));
    return unused;
}

static void *nothing(void *unused) { return unused; }

/* The bytes of stack that a thread has touched. */
static size_t touched(void *(*body)(void *))
{
    pthread_attr_t how;
    pthread_t thread;
    uint8_t *stack = mmap(NULL, STACK, PROT_READ | PROT_WRITE, MAP_PRIVATE | MAP_ANONYMOUS, -1, 0);
    size_t kept = 0;
    if (stack == MAP_FAILED || pthread_attr_init(&how) || pthread_attr_setstack(&how, stack, STACK))
        exit(1);
    memset(stack, FILL, STACK);
    if (pthread_create(&thread, &how, body, NULL) || pthread_join(thread, NULL))
        exit(1);
    while (kept < STACK && stack[kept] == FILL)
        kept++;
    munmap(stack, STACK);
    return STACK - kept;
}

int main(void)
{
    size_t without = touched(nothing);
    printf("%zu bytes of stack, beside %zu that a thread takes by itself\n", touched(story) - without, without);
    return 0;
}
