/* requests DEVICE BLOCKS BLOCK_BYTES DEPTH COUNT WRITES [FILLED [KEPT]]: random reads and writes of whole blocks past the page cache, by the kernel's own
   asynchronous requests, DEPTH of them at once and WRITES in a hundred of them writes. Each block that is read is compared with what was
   written to it last; blocks that were not written yet are written first, unless FILLED says that each has its first text. It prints one line with what
   came of it. With KEPT each block whose text is known is read once more at the end: `kept` have it, and `lost` have another one. */
#define _GNU_SOURCE
#include "text.h"

#include <fcntl.h>
#include <linux/aio_abi.h>
#include <stdbool.h>
#include <stdint.h>
#include <stdio.h>
#include <stdlib.h>
#include <string.h>
#include <sys/syscall.h>
#include <unistd.h>

#define MOST_DEPTH 64

struct request {
    struct iocb control;
    uint64_t block;
    bool busy;
};

static struct {
    int file;
    uint64_t blocks, bytes, count, writes;
    unsigned depth;
    uint32_t *versions; /* by block: which text was written to it last; 0 for none */
    bool *busy;         /* by block: some request is on its way */
    struct request requests[MOST_DEPTH];
    uint64_t done, compared, errors, wrong;
} all;

static uint64_t next_random(void) {
    static uint64_t x = UINT64_C(88172645463325252);
    x ^= x << 13;
    x ^= x >> 7;
    x ^= x << 17;
    return x >> 16;
}

static void end(const char *why) {
    perror(why);
    exit(1);
}

/* A block with no request on its way. */
static uint64_t choose(void) {
    uint64_t block;
    do
        block = next_random() % all.blocks;
    while (all.busy[block]);
    return block;
}

static void submit(aio_context_t context, struct request *request) {
    uint64_t block = choose(), *words = (uint64_t *)(uintptr_t)request->control.aio_buf;
    bool writes = !all.versions[block] || next_random() % 100 < all.writes;
    struct iocb *control = &request->control;
    request->block = block;
    request->busy = all.busy[block] = true;
    control->aio_lio_opcode = writes ? IOCB_CMD_PWRITE : IOCB_CMD_PREAD;
    control->aio_offset = (int64_t)(block * all.bytes);
    if (writes)
        text_fill(words, all.bytes, block, ++all.versions[block]);
    else
        memset(words, 0xEE, all.bytes);
    if (syscall(SYS_io_submit, context, 1, &control) != 1)
        end("io_submit");
}

static void finish(const struct io_event *event) {
    struct request *request = &all.requests[event->data];
    const uint64_t *words = (const uint64_t *)(uintptr_t)request->control.aio_buf;
    bool reads = request->control.aio_lio_opcode == IOCB_CMD_PREAD;
    request->busy = all.busy[request->block] = false;
    all.done++;
    if (event->res != (int64_t)all.bytes) {
        all.errors++;
        if (!reads)
            all.versions[request->block] = 0;
        return;
    }
    all.compared += reads;
    all.wrong += reads && !text_is(words, all.bytes, request->block, all.versions[request->block]);
}

static void run(aio_context_t context) {
    struct io_event events[MOST_DEPTH];
    uint64_t begun = 0;
    while (all.done < all.count) {
        for (unsigned i = 0; i < all.depth && begun < all.count; i++)
            if (!all.requests[i].busy) {
                submit(context, &all.requests[i]);
                begun++;
            }
        long got = syscall(SYS_io_getevents, context, 1, all.depth, events, NULL);
        if (got < 1)
            end("io_getevents");
        for (long i = 0; i < got; i++)
            finish(&events[i]);
    }
}

static void begin(char **words, bool filled) {
    all.file = open(words[1], O_RDWR | O_DIRECT);
    if (all.file < 0)
        end(words[1]);
    all.blocks = strtoull(words[2], NULL, 0);
    all.bytes = strtoull(words[3], NULL, 0);
    all.depth = (unsigned)strtoul(words[4], NULL, 0);
    all.count = strtoull(words[5], NULL, 0);
    all.writes = strtoull(words[6], NULL, 0);
    all.versions = calloc(all.blocks, sizeof *all.versions);
    all.busy = calloc(all.blocks, sizeof *all.busy);
    if (!all.versions || !all.busy || all.depth > MOST_DEPTH || all.depth >= all.blocks)
        end("requests");
    for (uint64_t i = 0; filled && i < all.blocks; i++)
        all.versions[i] = 1;
    for (unsigned i = 0; i < all.depth; i++) {
        struct iocb *control = &all.requests[i].control;
        void *bytes = aligned_alloc(4096, (all.bytes + 4095) / 4096 * 4096);
        if (!bytes)
            end("requests");
        *control = (struct iocb){.aio_data = i, .aio_fildes = (uint32_t)all.file, .aio_buf = (uintptr_t)bytes, .aio_nbytes = all.bytes};
    }
}

/* Reads each block whose text is known, and prints how many have it. One that can't be read is in neither number. */
static void read_all(void) {
    uint64_t *words = (uint64_t *)(uintptr_t)all.requests[0].control.aio_buf, kept = 0, lost = 0;
    for (uint64_t block = 0; block < all.blocks; block++) {
        if (!all.versions[block] || pread(all.file, words, all.bytes, (off_t)(block * all.bytes)) != (ssize_t)all.bytes)
            continue;
        bool is = text_is(words, all.bytes, block, all.versions[block]);
        kept += is;
        lost += !is;
    }
    printf(" kept %llu lost %llu", (unsigned long long)kept, (unsigned long long)lost);
}

int main(int count, char **words) {
    aio_context_t context = 0;
    if (count < 7 || count > 9)
        return 2;
    begin(words, count >= 8);
    if (syscall(SYS_io_setup, all.depth, &context))
        end("io_setup");
    run(context);
    printf("requests %llu compared %llu errors %llu wrong %llu", (unsigned long long)all.done, (unsigned long long)all.compared,
           (unsigned long long)all.errors, (unsigned long long)all.wrong);
    if (count == 9)
        read_all();
    printf("\n");
    return 0;
}
