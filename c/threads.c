/* Threads: two ports, each with a thread of its own, and one port that two threads share behind a lock. The library keeps nothing between
   ports, so the first needs no lock. Built with the thread sanitizer, and run by valgrind's helgrind, which also sees the library's own reads
   and writes. */
#define _DEFAULT_SOURCE
#include "ahci.h"
#include <pthread.h>
#include <stdio.h>
#include <stdlib.h>
#include <string.h>

#define SECTORS 64
#define DEPTH 4
#define ROUNDS 200
#define FAIL_EACH 7
#define RUN(call) run((call), #call, __LINE__)
#define NEED(what) need((what), #what, __LINE__)

static void run(uint32_t status, const char *call, int line)
{
    if (status != AHCI_OK) {
        fprintf(stderr, "threads.c:%d: %s: status %u\n", line, call, (unsigned)status);
        exit(1);
    }
}

static void need(int holds, const char *what, int line)
{
    if (!holds) {
        fprintf(stderr, "threads.c:%d: not so: %s\n", line, what);
        exit(1);
    }
}

/* One port, which threads may share. */
struct shared {
    ahci_port port;
    pthread_mutex_t lock;
};

/* What a thread does: its port, its tag and the half of the disk that it writes. */
struct worker {
    struct shared *shared;
    uint32_t tag;
    uint64_t first;
    pthread_t thread;
};

/* Lets the device complete the command of a tag, or fail it at its sector; a failure is recovered. */
static void complete(struct worker *it, uint64_t lba, int fails)
{
    ahci_port *port = &it->shared->port;
    const uint8_t tag = (uint8_t)it->tag;
    ahci_stepped done;
    uint32_t failed;
    RUN(ahci_port_accept(port, it->tag, &done));
    if (!fails) {
        RUN(ahci_port_serve(port, &tag, 1, &done));
        return;
    }
    RUN(ahci_port_fail(port, it->tag, 0x40, lba, &done));
    RUN(ahci_port_recover(port, &failed));
    NEED(failed == it->tag);
}

/* A command of one sector, from submit to collect, in one holding of the lock. */
static ahci_reply command(struct worker *it, ahci_kind kind, uint64_t lba, uint8_t *data, int fails)
{
    uint64_t number;
    ahci_reply reply;
    NEED(!pthread_mutex_lock(&it->shared->lock));
    RUN(ahci_port_submit(&it->shared->port, it->tag, kind, lba, 1, data, kind == AHCI_WRITE ? AHCI_SECTOR_BYTES : 0, &number));
    complete(it, lba, fails);
    RUN(ahci_port_collect(&it->shared->port, it->tag, number, &reply, data, AHCI_SECTOR_BYTES));
    NEED(!pthread_mutex_unlock(&it->shared->lock));
    NEED(reply.number == number);
    return reply;
}

/* Writes sectors and reads them back; each seventh write fails and leaves its sector as it was. */
static void *work(void *worker)
{
    struct worker *it = worker;
    uint8_t shadow[SECTORS] = {0}, data[AHCI_SECTOR_BYTES];
    for (unsigned round = 0; round < ROUNDS; round++) {
        uint64_t lba = it->first + round * 5 % (SECTORS / 2);
        int fails = round % FAIL_EACH == 0;
        memset(data, (int)(round + it->tag) & 0xff, sizeof data);
        ahci_reply reply = command(it, AHCI_WRITE, lba, data, fails);
        NEED(reply.outcome == (fails ? AHCI_DID_FAIL : AHCI_DID_WRITE));
        if (!fails)
            shadow[lba] = (uint8_t)(round + it->tag);
        reply = command(it, AHCI_READ, lba, data, 0);
        NEED(reply.outcome == AHCI_DID_READ);
        NEED(data[0] == shadow[lba] && data[AHCI_SECTOR_BYTES - 1] == shadow[lba]);
    }
    return NULL;
}

static void begin(struct shared *shared)
{
    *shared = (struct shared){.port = AHCI_PORT_EMPTY};
    NEED(!pthread_mutex_init(&shared->lock, NULL));
    RUN(ahci_port_new_zeros(&shared->port, SECTORS, DEPTH));
}

static void end(struct shared *shared)
{
    RUN(ahci_port_free(&shared->port));
    NEED(!pthread_mutex_destroy(&shared->lock));
}

/* Two workers, over these ports. */
static void go(struct shared *first, struct shared *second)
{
    struct worker workers[] = {{.shared = first, .tag = 0, .first = 0}, {.shared = second, .tag = 1, .first = SECTORS / 2}};
    for (unsigned i = 0; i < 2; i++)
        NEED(!pthread_create(&workers[i].thread, NULL, work, &workers[i]));
    for (unsigned i = 0; i < 2; i++)
        NEED(!pthread_join(workers[i].thread, NULL));
}

int main(void)
{
    struct shared one, other, both;
    begin(&one);
    begin(&other);
    begin(&both);
    go(&one, &other);
    go(&both, &both);
    end(&one);
    end(&other);
    end(&both);
    printf("threads: two ports on two threads, and one port on two threads behind a lock, %u commands each\n", 2 * ROUNDS);
    return 0;
}
